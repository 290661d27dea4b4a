/* What plain_many.c, plain_pair.c and the dump calls use of the field calls in plain.c. */
#ifndef PLAIN_FIELD_H
#define PLAIN_FIELD_H

#include "plain.h"

/* The form with a range for each generation. */
enum { RANGED = 2 };

enum { FEWEST_GENERATIONS = 2, MOST_GENERATIONS = 16, MOST_GROUPS = 256 };

/*
 * What a shape comes to; the shape has to stay where it is while the field is used. Out of bounds, refusal is 1, and all else
 * means nothing. In bounds there is always room in 256 groups: a count grows with each range, and the first is at most 194.
 */
struct field {
    uint64_t refusal, m, t;
    const uint64_t *v;   /* of the shape */
    int ranged;          /* each generation has a range of its own */
    unsigned first;      /* how many places generation 1 writes at least: 0 in form 0, else 1 */
    unsigned h[MOST_GENERATIONS];
};

void plain_lay_out(struct field *f, const struct gorvlime_shape *shape);

static inline uint64_t ranges_due(uint64_t form, uint64_t t)
{
    return form == RANGED ? t : 1;
}

/* Of generation i (from 1) of a field in bounds, as are the next two. */
static inline uint64_t range_of(const struct field *f, unsigned i)
{
    return f->v[f->ranged ? i - 1 : 0];
}

static inline unsigned wits_of(const struct field *f)
{
    return f->m * f->h[0];
}

static inline unsigned bytes_of(const struct field *f)
{
    return (wits_of(f) + 7) / 8;
}

/* 0, the field's own refusal, or 3 where the byte count is wrong or a left-over bit is 1. */
uint64_t plain_misfit(const struct field *f, const uint8_t *cells, size_t count);

struct gorvlime_reading plain_read_cells(const struct field *f, const uint8_t *cells, size_t count);

/* As a read, but that blank cells are generation 0 and number 0 in every form; left is not told. */
struct gorvlime_reading plain_look_at(const struct field *f, const uint8_t *cells, size_t count);

/* 0, the refusal of the field or its cells, or 6 where one range is that of all generations. */
uint64_t plain_refusal_unread(const struct field *f, const uint8_t *cells, size_t count, uint64_t number);

/* Writes a number at generation i (from 1), which has to be the one behind the cells'; answers the wits turned. */
unsigned plain_write_at(const struct field *f, uint8_t *cells, size_t count, unsigned i, uint64_t number);

struct gorvlime_writing plain_write_cells(const struct field *f, uint8_t *cells, size_t count, uint64_t number);

#endif
