/*
 * The layout of a field, which every other call begins with.
 *
 * No number needs more than 64 bits, although a list of counts is easily written down that does. The search for a count goes
 * up by one group at a time and stops at the first with v patterns or more. Before its last step the sum is at most 2^56 and
 * the count below 2^8; after it the sum is below 0.88 * 2^64 (the most is at m 4, next count 121). So a pattern's number fits
 * too. This holds for every next count that ranges up to 2^56 can lead to, in whatever order they stand: a count grows with
 * each range. A low range behind a high one makes a step long, up to 35 at m 2, so that more than half of the places may be
 * written; the products on the way to a binomial, also where it falls again, stay below 2^59.
 */
#include "plain_field.h"

static const uint64_t MOST_RANGE = (uint64_t)1 << 56;

/* The least h with as many numbers of h digits as are needed: base^h. */
static unsigned last_count(unsigned base, uint64_t needed)
{
    uint64_t power = 1;
    unsigned h = 0;
    while (power < needed) {
        power *= base;
        h++;
    }
    return h;
}

/*
 * The least h above `next` with as many patterns as are needed that write at most h - next of the h places.
 * The sum starts at one place more than `next`, of which none or one is written. One place more, of which one more may be
 * written: the new place is blank or holds one of b values beside any pattern so far, or it is blank and one of the others
 * more is written.
 */
static unsigned least_count(unsigned next, unsigned b, uint64_t needed)
{
    uint64_t k = 1, h = next + 1, term = next * b, sum = 1 + h * b;
    while (sum < needed) {
        k++;
        term = term * h / k * b;   /* C(h, k) b^k */
        sum = sum * (b + 1) + term;
        h++;
    }
    return h;
}

static int is_in_bounds(const struct gorvlime_shape *s)
{
    if (s->form > RANGED || s->m < 2 || s->m > 4 || s->t < FEWEST_GENERATIONS || s->t > MOST_GENERATIONS
        || s->count != ranges_due(s->form, s->t))
        return 0;
    for (uint64_t i = 0; i < s->count; i++)
        if (s->v[i] < 2 || s->v[i] > MOST_RANGE)
            return 0;
    return 1;
}

/*
 * From the last generation back to the first. All zeros are a number in generation 1 of form 0 alone: every other generation
 * needs one pattern more than its range.
 */
void plain_lay_out(struct field *f, const struct gorvlime_shape *shape)
{
    f->refusal = is_in_bounds(shape) ? GORVLIME_ACCEPTED : GORVLIME_BOUNDS;
    if (f->refusal != GORVLIME_ACCEPTED)
        return;
    unsigned i = shape->t - 1, ones = (1u << shape->m) - 1;
    uint64_t needed = shape->v[shape->count - 1] + 1;
    f->m = shape->m;
    f->t = shape->t;
    f->v = shape->v;
    f->ranged = shape->form == RANGED;
    f->first = shape->form > 0;
    unsigned h = last_count(ones, needed);
    f->h[i] = h;
    while (--i > 0) {
        if (f->ranged)
            needed = shape->v[i] + 1;
        h = least_count(h, ones - 1, needed);
        f->h[i] = h;
    }
    f->h[0] = least_count(h, ones, shape->v[0] + f->first);
}

struct gorvlime_counts plain_layout(struct gorvlime_shape shape, uint64_t g)
{
    struct gorvlime_counts answer = {0};
    struct field f;
    if (g > MOST_GROUPS) {
        answer.refusal = GORVLIME_BOUNDS;
        return answer;
    }
    plain_lay_out(&f, &shape);
    answer.refusal = f.refusal;
    if (answer.refusal == GORVLIME_ACCEPTED && f.h[0] > g)
        answer.refusal = GORVLIME_NO_ROOM;
    for (unsigned i = 0; answer.refusal == GORVLIME_ACCEPTED && i < shape.t; i++)
        answer.h[i] = f.h[i];
    return answer;
}
