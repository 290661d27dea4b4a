/* Cells as 64-bit words, which plain.c works on: many groups at once, and no array of groups. */
#ifndef PLAIN_WORDS_H
#define PLAIN_WORDS_H

#include <stddef.h>
#include <stdint.h>

/* 450 wits at m 3 take the most words, 48 to a word. */
enum { MOST_WORDS = 10 };

/*
 * A mark is the low bit of a group. A word has eight bytes, or six where m is 3, so that no group lies in two words; the first
 * byte is the high one. Behind the field stand ones: groups there are neither zero nor unerased, so that nothing counts them.
 */
struct words {
    unsigned m, bytes, count, behind;   /* wits of a group; bytes of a word; words; bits behind the field */
    unsigned zeros, unerased;           /* groups */
    uint64_t ones;                      /* the value of an erased group */
    uint64_t low;                       /* marks of all groups of a word */
    uint64_t word[MOST_WORDS];
    uint64_t zero[MOST_WORDS];          /* marks of the zero groups */
    uint64_t place[MOST_WORDS];         /* marks of the groups that the generation's pattern lies on */
};

#define IN_EVERY_BYTE(bits) (UINT64_MAX / 255 * (bits))

/* Each byte becomes the count of its ones. */
static inline uint64_t ones_by_byte(uint64_t x)
{
    x -= x >> 1 & IN_EVERY_BYTE(0x55);
    x = (x & IN_EVERY_BYTE(0x33)) + (x >> 2 & IN_EVERY_BYTE(0x33));
    return (x + (x >> 4)) & IN_EVERY_BYTE(0x0f);
}

/* For a sum below 256. */
static inline unsigned sum_of_bytes(uint64_t x)
{
    return x * IN_EVERY_BYTE(1) >> 56;
}

/* Plain x86-64 has no instruction for it, and the compiler's own way is a call of its library. */
static inline unsigned ones_in(uint64_t x)
{
    return sum_of_bytes(ones_by_byte(x));
}

static inline unsigned lowest_of(uint64_t marks)
{
    return __builtin_ctzll(marks);
}

static inline unsigned highest_of(uint64_t marks)
{
    return 63 ^ __builtin_clzll(marks);
}

static inline uint64_t load_four(const uint8_t *from)
{
    return (uint32_t)from[0] << 24 | (uint32_t)from[1] << 16 | (uint32_t)from[2] << 8 | from[3];
}

/* The compiler makes one load of it. */
static inline uint64_t load_word(const struct words *w, const uint8_t *from)
{
    if (w->bytes == 8)
        return load_four(from) << 32 | load_four(from + 4);
    return load_four(from) << 16 | (uint64_t)from[4] << 8 | from[5];
}

/* The last word has one byte of cells or more. */
static inline uint64_t load_last(const struct words *w, const uint8_t *from, size_t count)
{
    uint64_t word = 0;
    for (size_t i = 0; i < count; i++)
        word = word << 8 | from[i];
    return word << 8 * (w->bytes - count) | (((uint64_t)1 << w->behind) - 1);
}

static inline void store_four(uint8_t *to, uint32_t four)
{
    to[0] = four >> 24;
    to[1] = four >> 16;
    to[2] = four >> 8;
    to[3] = four;
}

static inline void store_word(const struct words *w, uint64_t word, uint8_t *to)
{
    if (w->bytes == 8) {
        store_four(to, word >> 32);
        store_four(to + 4, word);
    } else {
        store_four(to, word >> 16);
        to[4] = word >> 8;
        to[5] = word;
    }
}

static inline void store_last(const struct words *w, uint64_t word, uint8_t *to, size_t count)
{
    word = word >> w->behind << w->behind;
    for (size_t i = 0; i < count; i++)
        to[i] = word >> 8 * (w->bytes - 1 - i);
}

/* At a mark: bits 0 and 1 of the group by the first shift, its two highest by the second. */
static inline uint64_t nonzero_groups(const struct words *w, uint64_t word)
{
    word |= word >> 1;
    return (word | word >> (w->m - 2)) & w->low;
}

static inline uint64_t erased_groups(const struct words *w, uint64_t word)
{
    word &= word >> 1;
    return word & word >> (w->m - 2) & w->low;
}

#endif
