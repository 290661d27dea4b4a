#include "small.h"

#include "chain.h"
#include "chosen.h"

unsigned count_of(unsigned set)
{
    unsigned count = 0;
    for (; set != 0; set &= set - 1)
        count++;
    return count;
}

unsigned groups_of(const struct small_field *f)
{
    return f->counts.h[0];
}

unsigned group_of(const struct small_field *f, unsigned state, unsigned j)
{
    return state >> (groups_of(f) - 1 - j) * f->shape.m & f->ones;
}

unsigned state_of(const struct small_field *f, const struct lent *cells)
{
    unsigned state = 0;
    for (size_t i = 0; i < cells->count; i++)
        state = state << 8 | cells->all[MARGIN + i];
    return state >> (8 * cells->count - f->wits);
}

/* A generation's places are the groups that are not erased, and in the first one all. */
static void learn_pattern(struct small_field *f, unsigned generation, uint64_t number, const struct lent *before)
{
    struct lent cells = *before;
    CALL(write)(f->shape, LENT(cells), number);
    unsigned state = state_of(f, &cells), place = 0;
    for (unsigned j = 0; j < groups_of(f); j++)
        if (generation == 1 || group_of(f, state, j) != f->ones)
            f->pattern[generation - 1][number][place++] = group_of(f, state, j);
    same("places", place, f->counts.h[generation - 1]);
}

void learn_field(struct small_field *f, struct gorvlime_shape shape)
{
    struct lent cells = lend_blank(shape);
    f->shape = shape;
    f->counts = CALL(layout)(shape, 256);
    f->ones = (1u << shape.m) - 1;
    f->wits = shape.m * f->counts.h[0];
    for (unsigned i = 1; i <= shape.t; i++) {
        for (uint64_t number = 0; number < range_at(&shape, i); number++)
            learn_pattern(f, i, number, &cells);
        CALL(write)(shape, LENT(cells), 1);
    }
    for (unsigned state = 0; state < 1u << f->wits; state++) {
        struct lent lent = lend_wits(f->wits, state);
        f->readings[state] = CALL(read)(shape, LENT(lent));
    }
}

unsigned laid(const struct small_field *f, unsigned places, const unsigned *pattern)
{
    unsigned state = 0;
    for (unsigned j = 0; j < groups_of(f); j++)
        state = state << f->shape.m | (places >> j & 1 ? *pattern++ : f->ones);
    return state;
}
