/* Sets as masks, bit q for node q, and numbers of several bytes, highest byte first. */
#ifndef BITS_H
#define BITS_H

#include <stddef.h>
#include <stdint.h>

enum { NODES = 64 };

static inline uint64_t only(unsigned q)
{
    return (uint64_t)1 << q;
}

static inline uint64_t all_of(unsigned n)
{
    return ~(uint64_t)0 >> (NODES - n);
}

static inline int in(uint64_t set, unsigned q)
{
    return (int)(set >> q & 1);
}

static inline unsigned lowest(uint64_t set)
{
    return (unsigned)__builtin_ctzll(set);
}

/* without the processor's own instruction, which plain x86-64 need not have */
static inline unsigned size_of(uint64_t set)
{
    const uint64_t twos = 0x5555555555555555, fours = 0x3333333333333333, bytes = 0x0f0f0f0f0f0f0f0f;
    set -= set >> 1 & twos;
    set = (set & fours) + (set >> 2 & fours);
    set = (set + (set >> 4)) & bytes;
    return (unsigned)(set * 0x0101010101010101 >> 56);
}

static inline int quorum(uint64_t s, uint64_t base)
{
    return 2 * size_of(s) > size_of(base);
}

static inline uint32_t word_at(const uint8_t *s)
{
    return (uint32_t)s[0] << 24 | (uint32_t)s[1] << 16 | (uint32_t)s[2] << 8 | s[3];
}

static inline uint64_t mask_at(const uint8_t *s)
{
    return (uint64_t)word_at(s) << 32 | word_at(s + 4);
}

static inline void put_number(uint8_t *s, size_t len, uint64_t x)
{
    for (size_t i = len; i-- > 0; x >>= 8)
        s[i] = (uint8_t)x;
}

#endif
