/* Numbers as the demo prints them. */
#ifndef DEMO_NUMBERS_H
#define DEMO_NUMBERS_H

#include <stdint.h>
#include <stdio.h>

#include "colours.h"

/* A number with a comma before each group of three digits, right in its column. */
static inline void print_number(uint64_t number, int width)
{
    char text[32];
    int at = (int)sizeof text, digits = 0;
    text[--at] = 0;
    do {
        if (digits > 0 && digits % 3 == 0)
            text[--at] = ',';
        text[--at] = (char)('0' + number % 10);
        number /= 10;
        digits++;
    } while (number > 0);
    printf("%*s", width, text + at);
}

/* A number that should be 0: in red where it is not. */
static inline void print_fault(uint64_t number, int width)
{
    printf("%s", colour_if(number > 0, RED));
    print_number(number, width);
    printf("%s", colour_if(number > 0, PLAIN_COLOUR));
}

#endif
