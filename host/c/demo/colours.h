/* Colours, which only a terminal gets. */
#ifndef DEMO_COLOURS_H
#define DEMO_COLOURS_H

#include <stdbool.h>
#include <unistd.h>

#define RED "\033[1;31m"
#define YELLOW "\033[33m"
#define PLAIN_COLOUR "\033[0m"

/* The colour where it is wanted and standard output is a terminal, else nothing. */
static inline const char *colour_if(bool wanted, const char *colour) { return wanted && isatty(STDOUT_FILENO) ? colour : ""; }

#endif
