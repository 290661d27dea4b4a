/* Seven-bit numbers, and old records made of them, which plain_dump.c and plain_newdump.c share. */
#ifndef PLAIN_RECORDS_H
#define PLAIN_RECORDS_H

#include "gorvlime.h"

enum { MOST_DUMP = 65536, LONGEST_NUMBER = 9 };

static const uint64_t MOST_SERIAL = UINT64_MAX >> 1;

struct record {
    uint64_t serial, m, t, v, length;
    size_t start;
};

/* What an old record and the old export say of a field. */
static inline struct gorvlime_shape shape_of_form_0(uint64_t m, uint64_t t, uint64_t v)
{
    return (struct gorvlime_shape){.m = m, .t = t, .count = 1, .v = {v}};
}

static inline size_t put_number(uint8_t *out, uint64_t number)
{
    size_t length = 0;
    while (number >= 0x80) {
        out[length++] = number | 0x80;
        number >>= 7;
    }
    out[length++] = number;
    return length;
}

/* Reads the number at *at and moves *at behind it. False: cut off, over nine bytes or not in shortest form. */
static inline int get_number(const uint8_t *dump, size_t count, size_t *at, uint64_t *number)
{
    uint64_t value = 0;
    for (unsigned shift = 0; shift < 7 * LONGEST_NUMBER && *at < count; shift += 7) {
        uint8_t byte = dump[(*at)++];
        value |= (uint64_t)(byte & 0x7f) << shift;
        if (byte < 0x80) {
            *number = value;
            return byte != 0 || shift == 0;
        }
    }
    return 0;
}

/* The record at an offset below the dump's end. False: malformed. */
static inline int get_record(const uint8_t *dump, size_t count, size_t at, struct record *r)
{
    if (!get_number(dump, count, &at, &r->serial) || !get_number(dump, count, &at, &r->m)
        || !get_number(dump, count, &at, &r->t) || !get_number(dump, count, &at, &r->v)
        || !get_number(dump, count, &at, &r->length))
        return 0;
    r->start = at;
    return r->length <= count - at;
}

#endif
