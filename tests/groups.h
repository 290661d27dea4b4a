/* Lent cells wit by wit and group by group. */
#ifndef GROUPS_H
#define GROUPS_H

#include "check.h"

unsigned wit_at(const struct lent *cells, size_t wit);

/* Turns a wit to 1. */
void turn_wit(struct lent *cells, size_t wit);

/* Group j from the left, of m wits. */
unsigned group_at(const struct lent *cells, size_t m, size_t j);

/* Turns the wits that are 1 in the group. */
void set_group(struct lent *cells, size_t m, size_t j, unsigned group);

#endif
