/* The words of a record: four bytes each, the lowest byte first. */
#ifndef WORDS_H
#define WORDS_H

#include <stddef.h>
#include <stdint.h>

static inline void put(uint8_t *bytes, size_t at, uint32_t value)
{
    size_t k;
    for (k = 0; k < 4; k++)
        bytes[at + k] = (uint8_t)(value >> 8 * k);
}

static inline uint32_t get(const uint8_t *bytes, size_t at)
{
    return (uint32_t)bytes[at] | (uint32_t)bytes[at + 1] << 8 | (uint32_t)bytes[at + 2] << 16 | (uint32_t)bytes[at + 3] << 24;
}

#endif
