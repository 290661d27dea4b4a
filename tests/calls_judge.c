/*
 * A field before and after: values and the order of the refusals, every pair of small fields beside all choices of spare
 * groups, and writes of larger fields by the leftmost and by the rightmost spare groups.
 */
#include "chosen.h"
#include "chain.h"
#include "check.h"
#include "groups.h"
#include "small.h"

#include <inttypes.h>
#include <string.h>

/* Lent bytes are only looked at. */
static struct gorvlime_judged judge(struct gorvlime_shape shape, const struct lent *before, const struct lent *after)
{
    struct lent was = *before, is = *after;
    struct gorvlime_judged j = CALL(judge)(shape, LENT(was), LENT(is));
    same("lent bytes that were changed", memcmp(&was, before, sizeof was) != 0 || memcmp(&is, after, sizeof is) != 0, 0);
    return j;
}

static void same_judged(struct gorvlime_judged got, struct gorvlime_judged expected)
{
    same("refusal", got.refusal, expected.refusal);
    same("yes", got.yes, expected.yes);
    same("number", got.number, expected.number);
    same("generation", got.generation, expected.generation);
    same("unerased", got.unerased, expected.unerased);
}

#define YES(X) {.yes = 1, .number = (X)}
#define NO {0}
#define REFUSED(N) {.refusal = (N)}
#define MISCOUNTED(G, U) {.refusal = 15, .generation = (G), .unerased = (U)}
#define BEYOND(G) {.refusal = 16, .generation = (G)}

static const struct {
    struct gorvlime_shape shape;
    const char *before, *after;
    struct gorvlime_judged expected;
} values[] = {
    /* The groups 0 0 0 0 1 before: the leftmost zero group spare, the second, the third, the last; then another number. */
    {ONE_RANGE(0, 2, 2, 20), "00 40", "C1 C0", YES(0)},
    {ONE_RANGE(0, 2, 2, 20), "00 40", "31 C0", YES(0)},
    {ONE_RANGE(0, 2, 2, 20), "00 40", "0D C0", YES(0)},
    {ONE_RANGE(0, 2, 2, 20), "00 40", "07 C0", YES(0)},
    {ONE_RANGE(0, 2, 2, 20), "00 40", "1D C0", YES(3)},
    /* No spare group, two, and the last group not erased, with one spare group and with two. */
    {ONE_RANGE(0, 2, 2, 20), "00 40", "01 C0", NO},
    {ONE_RANGE(0, 2, 2, 20), "00 40", "F1 C0", MISCOUNTED(2, 2)},
    {ONE_RANGE(0, 2, 2, 20), "00 40", "C1 40", MISCOUNTED(2, 4)},
    {ONE_RANGE(0, 2, 2, 20), "00 40", "F0 40", NO},
    /* Every generation, then one back, one skipped, none, groups that are not erased, and spent cells. */
    {ONE_RANGE(0, 2, 3, 4), "00", "00", YES(0)},
    {ONE_RANGE(0, 2, 3, 4), "00", "03", YES(3)},
    {ONE_RANGE(0, 2, 3, 4), "03", "0B", YES(1)},
    {ONE_RANGE(0, 2, 3, 4), "0B", "4F", YES(2)},
    {ONE_RANGE(0, 2, 3, 4), "03", "00", NO},
    {ONE_RANGE(0, 2, 3, 4), "03", "4F", NO},
    {ONE_RANGE(0, 2, 3, 4), "00", "0B", NO},
    {ONE_RANGE(0, 2, 3, 4), "03", "03", NO},
    {ONE_RANGE(0, 2, 3, 4), "01", "C1", NO},
    {ONE_RANGE(0, 2, 3, 4), "01", "C2", NO},
    {ONE_RANGE(0, 2, 3, 4), "4F", "4F", NO},
    {ONE_RANGE(0, 2, 3, 4), "4F", "00", NO},
    /* Forms 1 and 2: blank cells are due generation 1 before, and refused after. */
    {ONE_RANGE(1, 2, 3, 4), "00", "00", REFUSED(11)},
    {ONE_RANGE(1, 2, 3, 4), "00", "01", YES(0)},
    {ONE_RANGE(1, 2, 3, 4), "01", "07", YES(0)},
    {ONE_RANGE(1, 2, 3, 4), "07", "1F", YES(0)},
    {ONE_RANGE(1, 2, 3, 4), "01", "00", REFUSED(11)},
    {ONE_RANGE(1, 2, 3, 4), "1F", "00", REFUSED(11)},
    {ONE_RANGE(1, 2, 3, 4), "1F", "1F", NO},
    {RANGES(2, 3, 20, 4, 2), "00", "00", REFUSED(11)},
    {RANGES(2, 3, 20, 4, 2), "00", "0E", YES(19)},
    {RANGES(2, 3, 20, 4, 2), "0E", "8F", YES(3)},
    {RANGES(2, 3, 20, 4, 2), "8F", "EF", YES(1)},
    {RANGES(2, 3, 20, 4, 2), "8F", "BF", NO},
    {RANGES(2, 3, 20, 4, 2), "00", "0F", BEYOND(1)},
    /* Refusals of the shape before all others. */
    {ONE_RANGE(0, 2, 1, 4), "", "", REFUSED(1)},
    {ONE_RANGE(0, 5, 3, 4), "43", "0F", REFUSED(1)},
    {ONE_RANGE(0, 2, 3, RANGE + 1), "00", "00 00", REFUSED(1)},
    {ONE_RANGE(3, 2, 3, 4), "03", "0B", REFUSED(1)},
    {ONE_RANGE(2, 2, 3, 4), "03", "0B", REFUSED(1)},
    {RANGES(2, 3, 20, 4, 1), "0E", "8F", REFUSED(1)},
    /* Of the cells before, whatever stands after. */
    {ONE_RANGE(0, 2, 3, 4), "", "", REFUSED(3)},
    {ONE_RANGE(0, 2, 3, 4), "00 00", "0F", REFUSED(3)},
    {ONE_RANGE(0, 2, 2, 20), "00 41", "02 80", REFUSED(3)},
    {ONE_RANGE(0, 2, 3, 4), "0F", "00 00", MISCOUNTED(2, 2)},
    {ONE_RANGE(0, 2, 3, 4), "FF", "43", MISCOUNTED(3, 0)},
    {ONE_RANGE(0, 2, 3, 4), "43", "00 00", BEYOND(2)},
    {ONE_RANGE(0, 2, 3, 4), "43", "0F", BEYOND(2)},
    {ONE_RANGE(1, 2, 2, 20), "02 C0", "00 00", BEYOND(1)},
    /* Of the cells after, whatever is due on those before: something, or nothing since they are spent. */
    {ONE_RANGE(0, 2, 3, 4), "00", "", REFUSED(3)},
    {ONE_RANGE(0, 2, 3, 4), "03", "00 00", REFUSED(3)},
    {ONE_RANGE(0, 2, 3, 4), "4F", "00 00", REFUSED(3)},
    {ONE_RANGE(0, 2, 2, 20), "00 40", "C1 C1", REFUSED(3)},
    {ONE_RANGE(1, 2, 2, 20), "00 00", "00 01", REFUSED(3)},
    {ONE_RANGE(0, 2, 3, 4), "03", "0F", MISCOUNTED(2, 2)},
    {ONE_RANGE(0, 2, 3, 4), "4F", "FF", MISCOUNTED(3, 0)},
    {ONE_RANGE(0, 2, 3, 4), "03", "43", BEYOND(2)},
    {ONE_RANGE(0, 2, 3, 4), "4F", "43", BEYOND(2)},
};

static void check_values(void)
{
    for (size_t i = 0; i < sizeof values / sizeof values[0]; i++) {
        struct lent before = lend(values[i].before), after = lend(values[i].after);
        calling("judge %s, %s, then %s", told(values[i].shape), values[i].before, values[i].after);
        same_judged(judge(values[i].shape, &before, &after), values[i].expected);
    }
}

/* The generation that takes a number on these cells, which is t + 1 on spent ones. */
static unsigned due_on(const struct small_field *f, unsigned before)
{
    return before == 0 ? 1 : f->readings[before].generation + 1;
}

/* One more than the number of each right write: any of the zero groups may be its places, if they are as many as it has. */
static void list_right(const struct small_field *f, unsigned before, unsigned *right)
{
    unsigned generation = due_on(f, before), zeros = 0;
    memset(right, 0, STATES * sizeof right[0]);
    for (unsigned j = 0; j < groups_of(f); j++)
        zeros |= (unsigned)(group_of(f, before, j) == 0) << j;
    if (generation > f->shape.t)
        return;
    for (unsigned places = 0; places < 1u << groups_of(f); places++)
        if ((places & ~zeros) == 0 && count_of(places) == f->counts.h[generation - 1])
            for (unsigned number = 0; number < range_at(&f->shape, generation); number++)
                right[laid(f, places, f->pattern[generation - 1][number])] = number + 1;
}

static struct gorvlime_judged expected_of(const struct small_field *f, unsigned before, unsigned after, const unsigned *right)
{
    const struct gorvlime_reading *was = &f->readings[before], *is = &f->readings[after];
    const struct gorvlime_reading *refused = before != 0 && was->refusal != 0 ? was : is;
    if (refused->refusal != 0)
        return (struct gorvlime_judged){refused->refusal, 0, 0, refused->generation, refused->unerased};
    if (right[after] == 0)
        return (struct gorvlime_judged){0};
    return (struct gorvlime_judged){.yes = 1, .number = right[after] - 1};
}

/* The answer is the one that is due, and where it is yes no 1 became 0. */
static void check_pair(const struct small_field *f, unsigned before, unsigned after, const unsigned *right)
{
    struct lent was = lend_wits(f->wits, before), is = lend_wits(f->wits, after);
    struct gorvlime_judged got = CALL(judge)(f->shape, LENT(was), LENT(is)), due = expected_of(f, before, after, right);
    int is_wrong = memcmp(&got, &due, sizeof got) != 0 || (got.yes && (before & ~after) != 0);
    if (is_wrong) {
        calling("judge %s, wits %x, then %x", told(f->shape), before, after);
        same_judged(got, due);
    }
    same("judged wrongly", is_wrong, 0);
}

/*
 * All cells after those that right writes lead to from blank ones, and some after all others. A write turns no wit back, so
 * that cells are reached before their turn comes.
 */
static void check_field(struct gorvlime_shape shape)
{
    static struct small_field f;
    static unsigned right[STATES];
    unsigned char reached[STATES] = {1};
    unsigned spent = 0;
    calling("judge %s", told(shape));
    learn_field(&f, shape);
    for (unsigned before = 0; before < 1u << f.wits; before++) {
        list_right(&f, before, right);
        for (unsigned after = 0; after < 1u << f.wits; after += reached[before] ? 1 : 7) {
            check_pair(&f, before, after, right);
            reached[after] |= reached[before] && right[after] != 0;
        }
        spent += reached[before] && due_on(&f, before) > shape.t;
    }
    same("right writes lead to spent cells", spent > 0, 1);
}

/* From generation 2 on, the same pattern on the leftmost zero groups, so that the rightmost are spare. */
static struct lent rewritten(size_t m, size_t groups, const struct lent *before, const struct lent *after)
{
    struct lent cells = *before;
    unsigned ones = (1u << m) - 1;
    size_t from = 0;
    for (size_t j = 0; j < groups; j++) {
        while (from < groups && group_at(after, m, from) == ones)
            from++;
        int is_place = group_at(before, m, j) == 0 && from < groups;
        set_group(&cells, m, j, is_place ? group_at(after, m, from++) : ones);
    }
    return cells;
}

enum { RUNS = 4 };

/* A write and the same with other spare groups are right, and the way back is not. Leaves the latter. */
static void check_write(struct gorvlime_shape shape, uint64_t generation, uint64_t number, size_t groups, struct lent *cells)
{
    struct lent before = *cells;
    calling("judge write %" PRIu64 " of %s number %" PRIu64, generation, told(shape), number);
    CALL(write)(shape, LENT(*cells), number);
    same_judged(judge(shape, &before, cells), (struct gorvlime_judged)YES(number));
    same("yes to no write", judge(shape, cells, cells).yes, 0);
    if (generation == 1)
        return;
    *cells = rewritten(shape.m, groups, &before, cells);
    same_judged(judge(shape, &before, cells), (struct gorvlime_judged)YES(number));
    same("yes to the way back", judge(shape, cells, &before).yes, 0);
}

/* The i-th number of a run: the last ones in range, any, or low ones, which leave most spare groups. None is 0. */
static uint64_t number_of(uint64_t run, uint64_t i, uint64_t range)
{
    uint64_t numbers[RUNS] = {range - 1, 1 + i * 0x9e3779b97f4a7c15 % (range - 1), 1 + i % (range - 1), 1};
    return numbers[run];
}

static void check_writes(struct gorvlime_shape shape)
{
    size_t groups = CALL(layout)(shape, 256).h[0];
    for (uint64_t run = 0; run < RUNS; run++) {
        struct lent cells = lend_blank(shape);
        for (uint64_t i = 1; i <= shape.t; i++)
            check_write(shape, i, number_of(run, i, range_at(&shape, i)), groups, &cells);
    }
}

void check_judge(void)
{
    static const struct gorvlime_shape small[] = {SMALL_FIELDS};
    static const struct gorvlime_shape shapes[] = {
        ONE_RANGE(0, 2, 10, RANGE), ONE_RANGE(1, 2, 10, RANGE), ONE_RANGE(1, 3, 16, RANGE), ONE_RANGE(0, 4, 16, RANGE),
        RANGES(3, 3, 2, RANGE, 100), RANGES(2, 4, RANGE, RANGE >> 20, 1000, 3),
    };
    check_values();
    for (unsigned i = 0; i < sizeof small / sizeof small[0]; i++)
        check_field(small[i]);
    for (unsigned i = 0; i < sizeof shapes / sizeof shapes[0]; i++)
        check_writes(shapes[i]);
}
