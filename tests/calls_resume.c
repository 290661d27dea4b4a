/* A number written on cells that have no reading: values, the order of the refusals, and every state of small fields. */
#include "chosen.h"
#include "chain.h"
#include "check.h"
#include "small.h"

#include <inttypes.h>
#include <string.h>

static void same_resumed(struct gorvlime_resumed got, struct gorvlime_resumed expected)
{
    same("refusal", got.refusal, expected.refusal);
    same("generation", got.generation, expected.generation);
    same("turned", got.turned, expected.turned);
    same("count", got.count, expected.count);
    for (unsigned i = 0; i < 4; i++)
        same("erased", got.erased[i], expected.erased[i]);
}

/* The groups are a bit each, group 0 the lowest. */
#define DONE(G, T, N, GROUPS) {.generation = (G), .turned = (T), .count = (N), .erased = {(GROUPS)}}
#define REFUSED(N) {.refusal = (N)}

/* A refused call leaves the cells as they were, so `after` is only given where they change. */
static const struct {
    struct gorvlime_shape shape;
    const char *cells;
    uint64_t number;
    struct gorvlime_resumed expected;
    const char *after;
} values[] = {
    /* The erasures of a last write are made, but not its digits; then some of its digits and not all erasures. */
    {ONE_RANGE(0, 2, 2, 20), "C0 C0", 19, DONE(2, 2, 0, 0), "E2 C0"},
    {ONE_RANGE(0, 2, 2, 20), "E2 80", 19, REFUSED(5), NULL},
    /* 16 at generation 1 is never written there again. */
    {ONE_RANGE(0, 2, 3, 4), "04", 2, DONE(2, 2, 1, 1 << 2), "1C"},
    {ONE_RANGE(0, 2, 3, 4), "C0", 2, DONE(2, 1, 0, 0), "C4"},
    {ONE_RANGE(0, 2, 2, 20), "02 80", 0, DONE(2, 3, 2, 1 << 3 | 1 << 4), "07 C0"},
    {ONE_RANGE(1, 2, 2, 20), "02 C0", 0, DONE(2, 2, 1, 1 << 3), "07 C0"},
    /* 15 and 16 at generation 2 go on at 3. */
    {ONE_RANGE(0, 2, 3, 4), "0F", 2, DONE(3, 1, 0, 0), "4F"},
    {ONE_RANGE(0, 2, 3, 4), "50", 0, DONE(3, 3, 2, 1 << 0 | 1 << 1), "F1"},
    {ONE_RANGE(0, 2, 3, 4), "43", 3, DONE(3, 3, 1, 1 << 0), "D7"},
    /* 15 and 16 at the last generation have too few zero groups left. */
    {ONE_RANGE(0, 2, 3, 4), "FF", 2, REFUSED(5), NULL},
    {ONE_RANGE(0, 2, 3, 4), "F6", 2, REFUSED(5), NULL},
    {ONE_RANGE(0, 2, 3, 4), "54", 2, REFUSED(5), NULL},
    /* Cells that read, spent ones too, and blank ones in every form. */
    {ONE_RANGE(0, 2, 3, 4), "00", 2, REFUSED(17), NULL},
    {ONE_RANGE(1, 2, 3, 4), "00", 2, REFUSED(17), NULL},
    {ONE_RANGE(0, 2, 3, 4), "03", 2, REFUSED(17), NULL},
    {ONE_RANGE(0, 2, 3, 4), "0B", 1, REFUSED(17), NULL},
    {ONE_RANGE(0, 2, 3, 4), "4F", 2, REFUSED(17), NULL},
    {ONE_RANGE(0, 2, 2, 20), "E0 C0", 19, REFUSED(17), NULL},
    {RANGES(2, 3, 20, 4, 2), "00", 1, REFUSED(17), NULL},
    /* Form 2 goes by the range of the generation found. */
    {RANGES(2, 3, 20, 4, 2), "1B", 1, DONE(3, 3, 2, 1 << 1 | 1 << 2), "BF"},
    {RANGES(2, 3, 20, 4, 2), "1B", 2, REFUSED(6), NULL},
    {RANGES(2, 3, 20, 4, 2), "1B", UINT64_MAX, REFUSED(6), NULL},
    {RANGES(2, 3, 20, 4, 2), "0F", 3, DONE(2, 1, 0, 0), "8F"},
    {RANGES(2, 3, 20, 4, 2), "0F", 4, REFUSED(6), NULL},
    /* The order in forms 0 and 1 is 1, 3, 6, 17, 5. */
    {ONE_RANGE(0, 5, 3, 4), "", 4, REFUSED(1), NULL},
    {ONE_RANGE(0, 2, 17, 4), "0F", 4, REFUSED(1), NULL},
    {ONE_RANGE(0, 2, 3, RANGE + 1), "0F", 4, REFUSED(1), NULL},
    {ONE_RANGE(3, 2, 3, 4), "0F", 2, REFUSED(1), NULL},
    {ONE_RANGE(0, 2, 3, 4), "", 4, REFUSED(3), NULL},
    {ONE_RANGE(0, 2, 3, 4), "0F 00", 4, REFUSED(3), NULL},
    {ONE_RANGE(0, 2, 2, 20), "02 81", 20, REFUSED(3), NULL},
    {ONE_RANGE(0, 2, 2, 20), "02 A0", 20, REFUSED(3), NULL},
    {ONE_RANGE(0, 2, 3, 4), "00", 4, REFUSED(6), NULL},
    {ONE_RANGE(1, 2, 3, 4), "00", 4, REFUSED(6), NULL},
    {ONE_RANGE(0, 2, 3, 4), "4F", 4, REFUSED(6), NULL},
    {ONE_RANGE(0, 2, 3, 4), "0F", 4, REFUSED(6), NULL},
    {ONE_RANGE(0, 2, 3, 4), "FF", 4, REFUSED(6), NULL},
    {ONE_RANGE(0, 2, 3, 4), "FF", UINT64_MAX, REFUSED(6), NULL},
    /* In form 2 it is 1, 3, 17, 5, 6. */
    {RANGES(2, 3, 20, 4, 1), "0F", 99, REFUSED(1), NULL},
    {ONE_RANGE(2, 2, 3, 4), "0F", 99, REFUSED(1), NULL},
    {RANGES(2, 3, 20, 4, 2), "", 99, REFUSED(3), NULL},
    {RANGES(2, 2, 20, 20), "02 C1", 99, REFUSED(3), NULL},
    {RANGES(2, 3, 20, 4, 2), "0E", 99, REFUSED(17), NULL},
    {RANGES(2, 3, 20, 4, 2), "00", 99, REFUSED(17), NULL},
    {RANGES(2, 3, 20, 4, 2), "FF", 99, REFUSED(5), NULL},
};

static void check_values(void)
{
    for (size_t i = 0; i < sizeof values / sizeof values[0]; i++) {
        struct lent cells = lend(values[i].cells);
        calling("resume %s cells %s number %" PRIu64, told(values[i].shape), values[i].cells, values[i].number);
        same_resumed(CALL(resume)(values[i].shape, LENT(cells), values[i].number), values[i].expected);
        holds(&cells, values[i].after != NULL ? values[i].after : values[i].cells);
    }
}

/* The zero groups of a state, a bit for each. */
static unsigned zeros_of(const struct small_field *f, unsigned state)
{
    unsigned zeros = 0;
    for (unsigned j = 0; j < groups_of(f); j++)
        zeros |= (unsigned)(group_of(f, state, j) == 0) << j;
    return zeros;
}

/* The first generation from 2 on with no more places than zero groups are left; behind the last one there is none. */
static unsigned found_on(const struct small_field *f, unsigned state)
{
    unsigned i = 2;
    while (i <= f->shape.t && f->counts.h[i - 1] > count_of(zeros_of(f, state)))
        i++;
    return i;
}

static uint64_t refusal_due(const struct small_field *f, unsigned state, uint64_t number)
{
    unsigned i = found_on(f, state);
    if (f->shape.form < 2 && number >= f->shape.v[0])
        return 6;
    if (state == 0 || f->readings[state].refusal == 0)
        return 17;
    if (i > f->shape.t)
        return 5;
    return number >= range_at(&f->shape, i) ? 6 : 0;
}

/* The leftmost zero groups are erased until the generation's places are left, which get its pattern. */
static unsigned after_due(const struct small_field *f, unsigned state, unsigned i, uint64_t number)
{
    unsigned places = zeros_of(f, state);
    while (count_of(places) > f->counts.h[i - 1])
        places &= places - 1;
    return laid(f, places, f->pattern[i - 1][number]);
}

/* What is due, and the state that it leaves. */
static struct gorvlime_resumed expected_of(const struct small_field *f, unsigned state, uint64_t number, unsigned *after)
{
    struct gorvlime_resumed due = {.refusal = refusal_due(f, state, number)};
    *after = state;
    if (due.refusal != 0)
        return due;
    due.generation = found_on(f, state);
    *after = after_due(f, state, due.generation, number);
    due.turned = count_of(*after) - count_of(state);
    for (unsigned j = 0; j < groups_of(f); j++)
        if (group_of(f, *after, j) == f->ones && group_of(f, state, j) != f->ones)
            due.erased[0] |= 1u << j;
    due.count = count_of(due.erased[0]);
    return due;
}

static void check_state(const struct small_field *f, unsigned state, uint64_t number)
{
    unsigned after;
    struct gorvlime_resumed due = expected_of(f, state, number, &after);
    struct lent cells = lend_wits(f->wits, state), left = lend_wits(f->wits, after);
    struct gorvlime_resumed got = CALL(resume)(f->shape, LENT(cells), number);
    int is_wrong = memcmp(&got, &due, sizeof got) != 0 || memcmp(&cells, &left, sizeof cells) != 0;
    if (is_wrong) {
        calling("resume %s wits %x number %" PRIu64, told(f->shape), state, number);
        same_resumed(got, due);
        same("the wits afterwards", state_of(f, &cells), after);
    }
    same("resumed wrongly", is_wrong, 0);
}

/* Every number that some generation can hold, and one more. */
static void check_field(struct gorvlime_shape shape)
{
    static struct small_field f;
    uint64_t most = 0;
    calling("resume %s", told(shape));
    learn_field(&f, shape);
    for (unsigned i = 1; i <= shape.t; i++)
        most = range_at(&shape, i) > most ? range_at(&shape, i) : most;
    for (unsigned state = 0; state < 1u << f.wits; state++)
        for (uint64_t number = 0; number <= most; number++)
            check_state(&f, state, number);
}

void check_resume(void)
{
    static const struct gorvlime_shape shapes[] = {SMALL_FIELDS};
    check_values();
    for (unsigned i = 0; i < sizeof shapes / sizeof shapes[0]; i++)
        check_field(shapes[i]);
}
