/* Little-endian u32 in bytes, for the C tests. */
#ifndef WORDS_H
#define WORDS_H

#include <stddef.h>
#include <stdint.h>

static inline uint32_t word(const uint8_t *bytes, size_t at)
{
    return (uint32_t)bytes[at] | (uint32_t)bytes[at + 1] << 8 | (uint32_t)bytes[at + 2] << 16 |
           (uint32_t)bytes[at + 3] << 24;
}

static inline void put(uint8_t *bytes, size_t at, uint32_t value)
{
    int i;
    for (i = 0; i < 4; i++) {
        bytes[at + (size_t)i] = (uint8_t)(value >> 8 * i);
    }
}

#endif
