/* A field that is written from blank cells to its last generation. */
#ifndef CHAIN_H
#define CHAIN_H

#include "check.h"
#include "gorvlime.h"

#define RANGE GORVLIME_RANGE_MOST

/* The cells of a field in bounds. */
struct lent lend_blank(struct gorvlime_shape shape);

/* A number for each generation, and one write more. In form 0 none is 0, so that every write uses a generation up. */
void check_numbers(struct gorvlime_shape shape, const uint64_t *numbers);

/* The same number each time. */
void check_chain(struct gorvlime_shape shape, uint64_t number);

#endif
