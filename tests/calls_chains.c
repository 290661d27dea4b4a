/*
 * Writes of form 2 from blank cells to spent ones: with ranges that fall, rise and take turns, and with equal ones beside
 * form 1, which is answered the same but for the place of refusal 6.
 */
#include "chosen.h"
#include "chain.h"
#include "check.h"

#include <inttypes.h>
#include <string.h>

/* The number is refused and nothing is turned. */
static void check_refused(struct gorvlime_shape shape, const struct lent *cells, uint64_t number, uint64_t refusal)
{
    struct lent lent = *cells;
    struct gorvlime_writing w = CALL(write)(shape, LENT(lent), number), refused = {.refusal = refusal};
    same("refusal of a number", w.refusal, refusal);
    same("refused with it alone", memcmp(&w, &refused, sizeof w), 0);
    same("lent bytes that were changed", memcmp(&lent, cells, sizeof lent) != 0, 0);
}

/* Before each write its generation's range is refused, and behind the last one every number. */
static void check_limits(struct gorvlime_shape shape)
{
    struct lent cells = lend_blank(shape);
    for (uint64_t i = 1; i <= shape.t; i++) {
        calling("write %" PRIu64 " of %s at its range", i, told(shape));
        check_refused(shape, &cells, range_at(&shape, i), 6);
        check_refused(shape, &cells, UINT64_MAX, 6);
        same("generation written", CALL(write)(shape, LENT(cells), range_at(&shape, i) - 1).generation, i);
    }
    check_refused(shape, &cells, 0, 5);
    check_refused(shape, &cells, range_at(&shape, shape.t), 5);
    check_refused(shape, &cells, UINT64_MAX, 5);
}

/* The first number of each range, the last one, and some in between. */
static void check_writes(struct gorvlime_shape shape)
{
    uint64_t last[GORVLIME_RANGES_MOST], between[GORVLIME_RANGES_MOST];
    for (unsigned i = 0; i < shape.t; i++) {
        last[i] = shape.v[i] - 1;
        between[i] = (i + 1) * 0x9e3779b97f4a7c15 % shape.v[i];
    }
    check_chain(shape, 0);
    check_numbers(shape, last);
    check_numbers(shape, between);
    check_limits(shape);
}

/* Ranges from the largest down to 2, the same the other way, and the largest and the least by turns. */
static void check_unequal(uint64_t m, uint64_t t)
{
    struct gorvlime_shape falling = {.form = 2, .m = m, .t = t, .count = t}, rising = falling;
    struct gorvlime_shape high_first = falling, low_first = falling;
    for (unsigned i = 0; i < t; i++) {
        falling.v[i] = rising.v[t - 1 - i] = RANGE >> 55 * i / (t - 1);
        high_first.v[i] = i % 2 == 0 ? RANGE : 2;
        low_first.v[i] = i % 2 == 0 ? 2 : RANGE;
    }
    check_writes(falling);
    check_writes(rising);
    check_writes(high_first);
    check_writes(low_first);
}

/* Every run of numbers. */
static void check_all_numbers(struct gorvlime_shape shape)
{
    uint64_t numbers[GORVLIME_RANGES_MOST] = {0};
    uint64_t runs = 1;
    for (unsigned i = 0; i < shape.t; i++)
        runs *= shape.v[i];
    for (uint64_t run = 0; run < runs; run++) {
        uint64_t rest = run;
        for (unsigned i = 0; i < shape.t; i++) {
            numbers[i] = rest % shape.v[i];
            rest /= shape.v[i];
        }
        check_numbers(shape, numbers);
    }
}

/* Form 1, and form 2 with the same range t times. */
struct pair {
    struct gorvlime_shape one, many;
};

static struct pair pair_of(uint64_t m, uint64_t t, uint64_t v)
{
    struct pair p = {.one = ONE_RANGE(1, m, t, v), .many = {.form = 2, .m = m, .t = t, .count = t}};
    for (unsigned i = 0; i < t; i++)
        p.many.v[i] = v;
    return p;
}

static void check_same_list(const struct pair *p)
{
    uint64_t least = CALL(layout)(p->one, 256).h[0];
    const uint64_t offered[] = {0, least - 1, least, 256, 257};
    calling("layout of equal ranges, %s", told(p->one));
    for (size_t i = 0; i < sizeof offered / sizeof offered[0]; i++) {
        struct gorvlime_counts one = CALL(layout)(p->one, offered[i]), many = CALL(layout)(p->many, offered[i]);
        same("refusal", many.refusal, one.refusal);
        same("counts that differ", memcmp(&one, &many, sizeof one) != 0, 0);
    }
}

/* In the cells of one shape and of the other, each lent for itself. */
static void check_same_write(const struct pair *p, struct lent *cells, uint64_t number)
{
    struct lent others = *cells;
    struct gorvlime_writing one = CALL(write)(p->one, LENT(*cells), number);
    struct gorvlime_writing many = CALL(write)(p->many, LENT(others), number);
    same("refusal of the write", many.refusal, one.refusal);
    same("generation written", many.generation, one.generation);
    same("turned", many.turned, one.turned);
    same("unerased", many.unerased, one.unerased);
    same("cells that differ", memcmp(cells, &others, sizeof others) != 0, 0);
}

static void check_same_reading(const struct pair *p, const struct lent *cells)
{
    struct gorvlime_reading one = CALL(read)(p->one, LENT(*cells)), many = CALL(read)(p->many, LENT(*cells));
    same("refusal of the reading", many.refusal, one.refusal);
    same("readings that differ", memcmp(&one, &many, sizeof one) != 0, 0);
}

/* From blank cells until one write more than there are, a number out of range before each. */
static void check_same_chain(const struct pair *p, uint64_t number)
{
    struct lent cells = lend_blank(p->one);
    uint64_t v = p->one.v[0];
    for (uint64_t i = 0; i <= p->one.t + 1; i++) {
        calling("equal ranges, write %" PRIu64 " of %s number %" PRIu64, i, told(p->one), number);
        check_same_reading(p, &cells);
        check_refused(p->one, &cells, v, 6);
        check_refused(p->many, &cells, v, i < p->one.t ? 6 : 5);
        check_same_write(p, &cells, number);
    }
}

static void check_equal(uint64_t m, uint64_t t)
{
    static const uint64_t ranges[] = {2, 13, 22, 46, 1000, RANGE};
    for (size_t i = 0; i < sizeof ranges / sizeof ranges[0]; i++) {
        struct pair p = pair_of(m, t, ranges[i]);
        check_same_list(&p);
        check_same_chain(&p, 0);
        check_same_chain(&p, ranges[i] - 1);
    }
}

/* Out of range, form 2 is told what any number in range is told where that is refused, and else 6. */
static void check_out_of_range(const struct pair *p, const struct lent *cells)
{
    struct lent in_range = *cells, out_of_range = *cells;
    struct gorvlime_writing expected = CALL(write)(p->one, LENT(in_range), 0);
    struct gorvlime_writing many = CALL(write)(p->many, LENT(out_of_range), p->one.v[0]);
    if (expected.refusal == 0)
        expected = (struct gorvlime_writing){.refusal = 6};
    same("refusal out of range", many.refusal, expected.refusal);
    same("what it tells", memcmp(&many, &expected, sizeof many), 0);
    same("lent bytes that were changed", memcmp(&out_of_range, cells, sizeof *cells) != 0, 0);
    check_refused(p->one, cells, p->one.v[0], 6);
}

/* Every buffer of a small field. */
static void check_all_cells(uint64_t m, uint64_t t, uint64_t v)
{
    struct pair p = pair_of(m, t, v);
    size_t count = m * CALL(layout)(p.one, 256).h[0];
    for (uint32_t wits = 0; wits < (uint32_t)1 << count; wits++) {
        struct lent cells = lend_wits(count, wits), written = cells;
        calling("equal ranges, %s wits %x", told(p.one), wits);
        check_same_reading(&p, &cells);
        check_same_write(&p, &written, v - 1);
        check_out_of_range(&p, &cells);
    }
}

void check_range_chains(void)
{
    static const struct gorvlime_shape small[] = {
        RANGES(2, 3, 20, 4, 2), RANGES(2, 3, 2, 4, 20), RANGES(3, 3, 2, 30, 3), RANGES(4, 2, 2, 50),
    };
    for (uint64_t m = 2; m <= 4; m++) {
        for (uint64_t t = 2; t <= 16; t++) {
            check_unequal(m, t);
            check_equal(m, t);
        }
    }
    for (size_t i = 0; i < sizeof small / sizeof small[0]; i++)
        check_all_numbers(small[i]);
    check_all_cells(2, 3, 4);
    check_all_cells(2, 2, 20);
    check_all_cells(3, 2, 48);
}
