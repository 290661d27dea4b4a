/* Fields of few wits: every state of their cells, and what they may be written with. */
#ifndef SMALL_H
#define SMALL_H

#include "check.h"

enum { MOST_WITS = 10, STATES = 1 << MOST_WITS, MOST_GROUPS = 5, MOST_GENERATIONS = 4, MOST_NUMBERS = 20 };

/* Of every form and m, and of two to four generations. */
#define SMALL_FIELDS \
    ONE_RANGE(0, 2, 2, 2), ONE_RANGE(0, 2, 3, 4), ONE_RANGE(1, 2, 3, 4), ONE_RANGE(0, 2, 4, 2), ONE_RANGE(1, 2, 4, 2), \
    ONE_RANGE(0, 2, 2, 20), ONE_RANGE(1, 2, 2, 20), ONE_RANGE(0, 3, 2, 6), ONE_RANGE(1, 4, 2, 14), \
    RANGES(2, 3, 20, 4, 2), RANGES(2, 3, 2, 4, 20), RANGES(3, 3, 20, 12, 6)

/* A state of the cells is its wits as one number, the last wit being the lowest bit. */
struct small_field {
    struct gorvlime_shape shape;
    struct gorvlime_counts counts;
    unsigned ones, wits;
    /* The values that a number of a generation, both from 0, gives to its places from left to right. */
    unsigned pattern[MOST_GENERATIONS][MOST_NUMBERS][MOST_GROUPS];
    struct gorvlime_reading readings[STATES];
};

/* The patterns as the writer lays them, from blank cells to the last generation, and the reading of every state. */
void learn_field(struct small_field *f, struct gorvlime_shape shape);

/* The ones of a number, which may be the groups of a set or the wits of a state. */
unsigned count_of(unsigned set);

unsigned groups_of(const struct small_field *f);

/* Group j from the left. */
unsigned group_of(const struct small_field *f, unsigned state, unsigned j);

unsigned state_of(const struct small_field *f, const struct lent *cells);

/* The places hold the pattern, and all other groups are erased. A set of groups has bit j for group j. */
unsigned laid(const struct small_field *f, unsigned places, const unsigned *pattern);

#endif
