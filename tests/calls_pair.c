/*
 * Two fields as one: values and the order of the refusals, every two states of small fields beside single reads and writes,
 * and larger pairs written from blank cells until both fields are spent.
 */
#include "chosen.h"
#include "chain.h"
#include "check.h"
#include "small.h"

#include <inttypes.h>
#include <stdio.h>
#include <string.h>

#define PAIR(FORM, M, V, T1, T2) {.form = (FORM), .m = (M), .t1 = (T1), .v1 = (V), .t2 = (T2), .v2 = (V)}

static const char *told_pair(struct gorvlime_pair p)
{
    static char words[160];
    snprintf(words, sizeof words, "form %" PRIu64 " m %" PRIu64 " t %" PRIu64 " v %" PRIu64 " and t %" PRIu64 " v %" PRIu64,
             p.form, p.m, p.t1, p.v1, p.t2, p.v2);
    return words;
}

static struct gorvlime_shape shape_of(struct gorvlime_pair p, uint64_t t)
{
    return (struct gorvlime_shape)ONE_RANGE(p.form, p.m, t, p.v1);
}

static void same_reading(struct gorvlime_pair_reading got, struct gorvlime_pair_reading expected)
{
    same("refusal", got.refusal, expected.refusal);
    same("number", got.number, expected.number);
    same("left", got.left, expected.left);
    same("generation", got.generation, expected.generation);
    same("unerased", got.unerased, expected.unerased);
}

static void same_writing(struct gorvlime_pair_writing got, struct gorvlime_pair_writing expected)
{
    same("refusal", got.refusal, expected.refusal);
    same("field", got.field, expected.field);
    same("generation", got.generation, expected.generation);
    same("turned", got.turned, expected.turned);
    same("unerased", got.unerased, expected.unerased);
}

#define READ(X, LEFT) {.number = (X), .left = (LEFT)}
#define WRITTEN(FIELD, G, T) {.field = (FIELD), .generation = (G), .turned = (T)}
#define REFUSED(N) {.refusal = (N)}
#define MISCOUNTED(G, U) {.refusal = 15, .generation = (G), .unerased = (U)}
#define BEYOND(G) {.refusal = 16, .generation = (G)}

static const struct {
    struct gorvlime_pair pair;
    const char *first, *second;
    struct gorvlime_pair_reading expected;
} reads[] = {
    {PAIR(0, 2, 20, 2, 2), "00 00", "00 00", READ(0, 4)},
    {PAIR(0, 2, 20, 2, 2), "04 00", "00 00", READ(7, 3)},
    {PAIR(0, 2, 20, 2, 2), "04 00", "02 40", READ(6, 2)},
    {PAIR(0, 2, 20, 2, 2), "C2 C0", "02 40", READ(0, 1)},
    {PAIR(1, 2, 20, 2, 2), "EC 80", "00 80", READ(0, 1)},
    {PAIR(1, 2, 20, 2, 2), "EC 80", "00 00", READ(19, 2)},
    {PAIR(0, 2, 4, 3, 2), "4F", "00", READ(2, 2)},
    /* A blank first field is a 0 in form 0 alone, also beside a used second one. */
    {PAIR(0, 2, 20, 2, 2), "00 00", "00 40", READ(1, 3)},
    {PAIR(1, 2, 20, 2, 2), "00 00", "00 00", REFUSED(11)},
    {PAIR(1, 2, 20, 2, 2), "00 00", "00 40", REFUSED(11)},
    {PAIR(1, 2, 20, 2, 2), "00 00", "", REFUSED(11)},
    /* 18 before all: the ranges are compared as they are given. */
    {{.form = 9, .m = 9, .t1 = 2, .v1 = 20, .t2 = 2, .v2 = 21}, "", "", REFUSED(18)},
    {{.form = 0, .m = 2, .t1 = 2, .v1 = 20, .t2 = 2, .v2 = 0}, "02 80", "", REFUSED(18)},
    {{.form = 0, .m = 2, .t1 = 2, .v1 = RANGE + 1, .t2 = 2, .v2 = RANGE + 2}, "00 00", "00 00", REFUSED(18)},
    {{.form = 0, .m = 2, .t1 = 2, .v1 = 20, .t2 = 2, .v2 = (1ull << 32) + 20}, "00 00", "00 00", REFUSED(18)},
    /* Then the first field: 1, with a form above 1, 3, 15 and 16. */
    {PAIR(2, 2, 20, 2, 2), "00 40", "00 40", REFUSED(1)},
    {PAIR(3, 2, 20, 2, 2), "", "", REFUSED(1)},
    {PAIR(0, 1, 20, 2, 2), "", "", REFUSED(1)},
    {PAIR(0, 2, 20, 1, 2), "", "", REFUSED(1)},
    {PAIR(0, 2, 20, 17, 2), "", "", REFUSED(1)},
    {PAIR(0, 2, 1, 2, 2), "", "", REFUSED(1)},
    {PAIR(0, 2, RANGE + 1, 2, 2), "", "", REFUSED(1)},
    {PAIR(0, 2, 20, 2, 17), "", "00 00", REFUSED(3)},
    {PAIR(0, 2, 20, 2, 17), "00 41", "00 00", REFUSED(3)},
    {PAIR(0, 2, 20, 2, 17), "E2 80", "00 00", MISCOUNTED(2, 4)},
    {PAIR(0, 2, 20, 2, 17), "02 80", "00 00", BEYOND(1)},
    {PAIR(0, 2, 20, 2, 2), "02 80", "E2 80", BEYOND(1)},
    /* Then the second, blank first field or not. */
    {PAIR(0, 2, 20, 2, 17), "00 40", "", REFUSED(1)},
    {PAIR(0, 2, 20, 2, 1), "00 00", "", REFUSED(1)},
    {PAIR(0, 2, 20, 2, 0), "C1 C0", "", REFUSED(1)},
    {PAIR(0, 2, 4, 3, 2), "4F", "00 00", REFUSED(3)},
    {PAIR(0, 2, 20, 2, 2), "00 00", "00 41", REFUSED(3)},
    {PAIR(0, 2, 20, 2, 2), "00 00", "E2 80", MISCOUNTED(2, 4)},
    {PAIR(0, 2, 20, 2, 2), "00 40", "02 80", BEYOND(1)},
};

/* A refused write leaves both fields as they were, and any other leaves one; `after` is given of the field that changes. */
static const struct {
    struct gorvlime_pair pair;
    const char *first, *second;
    uint64_t number;
    struct gorvlime_pair_writing expected;
    const char *after;
} writes[] = {
    {PAIR(1, 2, 20, 2, 2), "00 00", "00 00", 7, WRITTEN(0, 1, 1), "08 00"},
    {PAIR(1, 2, 20, 2, 2), "08 00", "00 00", 19, WRITTEN(0, 2, 5), "EC 80"},
    {PAIR(1, 2, 20, 2, 2), "EC 80", "00 00", 0, WRITTEN(1, 1, 1), "00 80"},
    {PAIR(1, 2, 20, 2, 2), "EC 80", "00 80", 13, WRITTEN(1, 2, 5), "D8 C0"},
    {PAIR(1, 2, 20, 2, 2), "EC 80", "D8 C0", 1, REFUSED(5), NULL},
    {PAIR(0, 2, 20, 2, 2), "00 40", "00 00", 5, WRITTEN(0, 2, 4), "C8 C0"},
    {PAIR(0, 2, 20, 2, 2), "C2 C0", "00 00", 0, WRITTEN(1, 1, 2), "02 40"},
    {PAIR(0, 2, 20, 2, 2), "00 00", "00 40", 0, WRITTEN(0, 1, 2), "02 40"},
    {PAIR(0, 2, 20, 2, 2), "C1 C0", "C1 C0", 5, REFUSED(5), NULL},
    /* Blank fields that get a 0 stay blank in form 0, the second too. */
    {PAIR(0, 2, 20, 2, 2), "00 00", "00 00", 0, WRITTEN(0, 1, 0), NULL},
    {PAIR(0, 2, 20, 2, 2), "00 00", "00 40", 1, WRITTEN(0, 1, 0), NULL},
    {PAIR(0, 2, 20, 2, 2), "C1 C0", "00 00", 0, WRITTEN(1, 1, 0), NULL},
    {PAIR(0, 2, 20, 2, 2), "C2 C0", "00 00", 1, WRITTEN(1, 1, 0), NULL},
    /* A spent second field beside a first that is not. */
    {PAIR(0, 2, 20, 2, 2), "00 00", "C1 C0", 3, WRITTEN(0, 1, 2), "00 C0"},
    /* Other counts of generations. */
    {PAIR(0, 2, 4, 3, 2), "4F", "00", 1, WRITTEN(1, 1, 2), "0C"},
    {PAIR(0, 2, 4, 2, 3), "00", "4F", 3, WRITTEN(0, 1, 1), "04"},
    /* 18, then the first field: 1, 3, 6, 15, 16. */
    {{.form = 0, .m = 9, .t1 = 2, .v1 = 20, .t2 = 2, .v2 = 21}, "00 40", "00 00", 5, REFUSED(18), NULL},
    {{.form = 2, .m = 2, .t1 = 2, .v1 = 20, .t2 = 2, .v2 = 21}, "", "", 99, REFUSED(18), NULL},
    {PAIR(2, 2, 20, 2, 2), "00 40", "00 00", 5, REFUSED(1), NULL},
    {PAIR(0, 5, 20, 2, 2), "", "", 99, REFUSED(1), NULL},
    {PAIR(0, 2, 20, 2, 2), "", "", 20, REFUSED(3), NULL},
    {PAIR(0, 2, 20, 2, 2), "00 41", "", 20, REFUSED(3), NULL},
    {PAIR(0, 2, 20, 2, 2), "02 80", "00", 20, REFUSED(6), NULL},
    {PAIR(0, 2, 20, 2, 17), "E2 80", "00", UINT64_MAX, REFUSED(6), NULL},
    {PAIR(0, 2, 20, 2, 2), "C1 C0", "C1 C0", 20, REFUSED(6), NULL},
    {PAIR(0, 2, 20, 2, 17), "E2 80", "", 5, MISCOUNTED(2, 4), NULL},
    {PAIR(0, 2, 20, 2, 17), "02 80", "", 5, BEYOND(1), NULL},
    /* Then the second, also while the first is written: 1, 3, 15, 16. */
    {PAIR(0, 2, 20, 2, 17), "00 00", "", 5, REFUSED(1), NULL},
    {PAIR(0, 2, 20, 2, 17), "C1 C0", "", 5, REFUSED(1), NULL},
    {PAIR(0, 2, 20, 2, 2), "00 40", "00", 5, REFUSED(3), NULL},
    {PAIR(0, 2, 20, 2, 2), "00 40", "00 01", 5, REFUSED(3), NULL},
    {PAIR(1, 2, 20, 2, 2), "00 00", "E2 80", 5, MISCOUNTED(2, 4), NULL},
    {PAIR(0, 2, 20, 2, 2), "C1 C0", "E2 80", 5, MISCOUNTED(2, 4), NULL},
    {PAIR(0, 2, 20, 2, 2), "00 40", "02 80", 5, BEYOND(1), NULL},
};

static void check_values(void)
{
    for (size_t i = 0; i < sizeof reads / sizeof reads[0]; i++) {
        struct lent first = lend(reads[i].first), second = lend(reads[i].second);
        calling("read pair %s, %s and %s", told_pair(reads[i].pair), reads[i].first, reads[i].second);
        same_reading(CALL(read_pair)(reads[i].pair, LENT(first), LENT(second)), reads[i].expected);
        holds(&first, reads[i].first);
        holds(&second, reads[i].second);
    }
    for (size_t i = 0; i < sizeof writes / sizeof writes[0]; i++) {
        struct lent first = lend(writes[i].first), second = lend(writes[i].second);
        const char *after[] = {writes[i].first, writes[i].second};
        if (writes[i].after != NULL)
            after[writes[i].expected.field] = writes[i].after;
        calling("write pair %s, %s and %s, number %" PRIu64, told_pair(writes[i].pair), writes[i].first, writes[i].second,
                writes[i].number);
        same_writing(CALL(write_pair)(writes[i].pair, LENT(first), LENT(second), writes[i].number), writes[i].expected);
        holds(&first, after[0]);
        holds(&second, after[1]);
    }
}

/* The reading of a state, but that blank cells are generation 0 and number 0 in every form. */
static struct gorvlime_reading known(const struct small_field *f, unsigned state)
{
    return state == 0 ? (struct gorvlime_reading){.left = f->shape.t} : f->readings[state];
}

static struct gorvlime_pair_reading reading_due(const struct small_field *f, const struct small_field *g, unsigned first,
                                                unsigned second)
{
    struct gorvlime_reading front = f->readings[first], back = known(g, second);
    struct gorvlime_reading refused = front.refusal != 0 ? front : back;
    if (refused.refusal != 0)
        return (struct gorvlime_pair_reading){refused.refusal, 0, 0, refused.generation, refused.unerased};
    return (struct gorvlime_pair_reading){
        .number = (front.number + back.number) % f->shape.v[0], .left = front.left + back.left};
}

/* What is due of a write, which is done in the field that is due by a write of that field alone. */
static struct gorvlime_pair_writing writing_due(const struct small_field *f, const struct small_field *g,
                                                struct lent *first, struct lent *second, uint64_t number)
{
    struct gorvlime_reading front = known(f, state_of(f, first)), back = known(g, state_of(g, second));
    struct gorvlime_reading refused = front.refusal != 0 ? front : back;
    uint64_t v = f->shape.v[0], which = front.generation == f->shape.t;
    if (refused.refusal != 0)
        return (struct gorvlime_pair_writing){refused.refusal, 0, refused.generation, 0, refused.unerased};
    uint64_t other = which ? front.number : back.number;
    struct lent *chosen = which ? second : first;
    struct gorvlime_writing w = CALL(write)(which ? g->shape : f->shape, LENT(*chosen), (number + v - other) % v);
    if (w.refusal != 0)
        return (struct gorvlime_pair_writing){.refusal = w.refusal};
    return (struct gorvlime_pair_writing){.field = which, .generation = w.generation, .turned = w.turned};
}

static void check_states(struct gorvlime_pair pair, const struct small_field *f, const struct small_field *g, unsigned x,
                         unsigned y)
{
    struct lent first = lend_wits(f->wits, x), second = lend_wits(g->wits, y), one = first, other = second;
    uint64_t number = (x + 3 * y) % pair.v1;
    struct gorvlime_pair_reading read = CALL(read_pair)(pair, LENT(first), LENT(second)), due = reading_due(f, g, x, y);
    struct gorvlime_pair_writing written = CALL(write_pair)(pair, LENT(first), LENT(second), number);
    struct gorvlime_pair_writing write_due = writing_due(f, g, &one, &other, number);
    int is_misread = memcmp(&read, &due, sizeof due) != 0;
    int is_miswritten = memcmp(&written, &write_due, sizeof written) != 0 || memcmp(&first, &one, sizeof one) != 0
        || memcmp(&second, &other, sizeof other) != 0;
    calling("pair %s, wits %x and %x, number %" PRIu64, told_pair(pair), x, y, number);
    if (is_misread)
        same_reading(read, due);
    if (is_miswritten)
        same_writing(written, write_due);
    same("read or written wrongly", is_misread || is_miswritten, 0);
}

/* All states of the first field beside all, or where they are many every seventh, of the second. */
static void check_fields(struct gorvlime_pair pair)
{
    static struct small_field f, g;
    calling("pair %s", told_pair(pair));
    learn_field(&f, shape_of(pair, pair.t1));
    learn_field(&g, shape_of(pair, pair.t2));
    for (unsigned x = 0; x < 1u << f.wits; x++)
        for (unsigned y = 0; y < 1u << g.wits; y += f.wits + g.wits > 16 && y > 1 ? 7 : 1)
            check_states(pair, &f, &g, x, y);
}

static int is_risen(const struct lent *before, const struct lent *after)
{
    uint8_t back = 0;
    for (size_t i = 0; i < before->count; i++)
        back |= before->all[MARGIN + i] & ~after->all[MARGIN + i];
    return back == 0;
}

/* Write j is accepted, in the field that is due, and reads back; the other field is as it was. */
static void check_write(struct gorvlime_pair pair, uint64_t j, uint64_t number, struct lent *cells)
{
    struct lent before[2] = {cells[0], cells[1]};
    uint64_t which = j > pair.t1, generation = which ? j - pair.t1 : j;
    calling("write %" PRIu64 " of pair %s number %" PRIu64, j, told_pair(pair), number);
    struct gorvlime_pair_writing w = CALL(write_pair)(pair, LENT(cells[0]), LENT(cells[1]), number);
    same("refusal", w.refusal, 0);
    same("field", w.field, which);
    same("generation", w.generation, generation);
    same("the other field changed", memcmp(&cells[!which], &before[!which], sizeof before[0]) != 0, 0);
    same("no wit went back", is_risen(&before[which], &cells[which]), 1);
    same_reading(CALL(read_pair)(pair, LENT(cells[0]), LENT(cells[1])),
                 (struct gorvlime_pair_reading)READ(number, pair.t1 + pair.t2 - j));
}

/* No number is the one before it, so that no field gets a 0, which in form 0 would leave it blank. */
static void check_pair(struct gorvlime_pair pair)
{
    struct lent cells[2] = {lend_blank(shape_of(pair, pair.t1)), lend_blank(shape_of(pair, pair.t2))};
    uint64_t number = 0;
    for (uint64_t j = 1; j <= pair.t1 + pair.t2; j++) {
        number = (number + 1 + j * 0x9e3779b97f4a7c15 % (pair.v1 - 1)) % pair.v1;
        check_write(pair, j, number, cells);
    }
    struct lent before[2] = {cells[0], cells[1]};
    struct gorvlime_pair_writing more = CALL(write_pair)(pair, LENT(cells[0]), LENT(cells[1]), number);
    same_writing(more, (struct gorvlime_pair_writing)REFUSED(5));
    same("a spent pair changed", memcmp(cells, before, sizeof before) != 0, 0);
}

void check_pairs(void)
{
    static const struct gorvlime_pair small[] = {
        PAIR(0, 2, 4, 3, 3), PAIR(1, 2, 4, 3, 3), PAIR(0, 2, 4, 3, 2), PAIR(1, 2, 4, 2, 3), PAIR(0, 2, 20, 2, 2),
        PAIR(1, 2, 20, 2, 2), PAIR(0, 3, 6, 2, 2), PAIR(1, 4, 14, 2, 2), PAIR(0, 2, 2, 2, 4), PAIR(1, 2, 2, 4, 2),
    };
    static const struct gorvlime_pair large[] = {
        PAIR(0, 2, RANGE, 10, 10), PAIR(1, 2, RANGE, 10, 10), PAIR(0, 3, RANGE, 16, 2), PAIR(1, 4, RANGE, 2, 16),
        PAIR(1, 2, RANGE, 16, 16), PAIR(0, 4, 1000, 5, 9), PAIR(0, 3, 2, 2, 2), PAIR(1, 2, RANGE - 1, 3, 4),
    };
    check_values();
    for (unsigned i = 0; i < sizeof small / sizeof small[0]; i++)
        check_fields(small[i]);
    for (unsigned i = 0; i < sizeof large / sizeof large[0]; i++)
        check_pair(large[i]);
}
