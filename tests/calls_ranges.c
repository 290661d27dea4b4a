/* Checks of fields of form 2, which has a range for each generation, and of the count of ranges in every form. */
#include "chosen.h"
#include "chain.h"
#include "check.h"

#include <inttypes.h>
#include <string.h>

#define BIT_32 ((uint64_t)1 << 32)

static const struct {
    struct gorvlime_shape shape;
    uint64_t g, refusal, h[16];
} layouts[] = {
    {RANGES(2, 3, 20, 4, 2), 256, 0, {4, 2, 1}},
    {RANGES(2, 3, 20, 4, 2), 4, 0, {4, 2, 1}},
    {RANGES(2, 3, 20, 4, 2), 3, 2, {0}},
    {RANGES(2, 3, 20, 4, 2), 257, 1, {0}},
    {RANGES(2, 3, 2, 4, 20), 256, 0, {5, 4, 3}},
    /* Each sum is exactly the range, and then one too small. */
    {RANGES(2, 3, 9, 4, 2), 256, 0, {3, 2, 1}},
    {RANGES(2, 3, 10, 4, 2), 256, 0, {4, 2, 1}},
    {RANGES(2, 3, 20, 5, 2), 256, 0, {5, 3, 1}},
    {RANGES(2, 3, 9, 4, 3), 256, 0, {4, 3, 2}},
    {RANGES(2, 3, 9, 4, 8), 256, 0, {4, 3, 2}},
    {RANGES(2, 3, 9, 4, 9), 256, 0, {5, 4, 3}},
    {RANGES(2, 2, 12, 13), 256, 0, {4, 3}},
    {RANGES(2, 2, 13, 12), 256, 0, {5, 3}},
    /* Equal ranges, as in form 1. */
    {RANGES(2, 3, 4, 4, 4), 256, 0, {4, 3, 2}},
    {RANGES(2, 2, 13, 13), 256, 0, {5, 3}},
    {RANGES(2, 2, RANGE, RANGE), 48, 2, {0}},
    {RANGES(2, 2, RANGE, RANGE), 49, 0, {49, 36}},
    /* A step is as long as its own range needs, also where those behind it are short. */
    {RANGES(2, 2, 2, RANGE), 256, 0, {37, 36}},
    {RANGES(2, 2, RANGE, 2), 256, 0, {29, 1}},
    {RANGES(3, 2, RANGE, 2), 256, 0, {19, 1}},
    {RANGES(4, 2, RANGE, 2), 256, 0, {15, 1}},
    {RANGES(2, 3, 2, RANGE, 2), 256, 0, {37, 36, 1}},
    {RANGES(3, 3, 2, RANGE, 2), 256, 0, {21, 20, 1}},
    {RANGES(4, 3, 2, RANGE, 2), 256, 0, {16, 15, 1}},
    {RANGES(2, 3, RANGE, 2, RANGE), 256, 0, {50, 37, 36}},
    {RANGES(2, 5, 2, RANGE, 2, RANGE, 2), 256, 0, {53, 52, 37, 36, 1}},
    {RANGES(2, 10, RANGE, RANGE >> 4, RANGE >> 8, RANGE >> 12, RANGE >> 16, RANGE >> 20, RANGE >> 24, RANGE >> 28,
            RANGE >> 32, RANGE >> 36),
     256, 0, {96, 86, 75, 65, 55, 46, 37, 29, 21, 13}},
    {RANGES(2, 10, RANGE >> 36, RANGE >> 32, RANGE >> 28, RANGE >> 24, RANGE >> 20, RANGE >> 16, RANGE >> 12, RANGE >> 8,
            RANGE >> 4, RANGE),
     256, 0, {103, 100, 96, 91, 85, 78, 70, 61, 50, 36}},
    {RANGES(4, 16, RANGE, RANGE, RANGE, RANGE, RANGE, RANGE, RANGE, RANGE, RANGE, RANGE, RANGE, RANGE, RANGE, RANGE, RANGE,
            RANGE),
     128, 0, {128, 121, 114, 107, 100, 93, 86, 79, 72, 65, 58, 50, 42, 34, 25, 15}},
    {RANGES(2, 3, 20, 4, 1), 256, 1, {0}},
    {RANGES(1, 3, 20, 4, 2), 256, 1, {0}},
    {RANGES(5, 3, 20, 4, 2), 256, 1, {0}},
    /* As many ranges as t says, and more generations or fewer than there may be. */
    {RANGES(2, 0, 2), 256, 1, {0}},
    {RANGES(2, 1, 2), 256, 1, {0}},
    {RANGES(2, 17, 2, 2, 2, 2, 2, 2, 2, 2, 2, 2, 2, 2, 2, 2, 2, 2), 256, 1, {0}},
    {RANGES(2, UINT64_MAX, 2, 2, 2, 2, 2, 2, 2, 2, 2, 2, 2, 2, 2, 2, 2, 2), 256, 1, {0}},
    /* Bounds are tested before room. */
    {RANGES(2, 3, 20, 1, 2), 0, 1, {0}},
};

static void check_layouts(void)
{
    for (size_t i = 0; i < sizeof layouts / sizeof layouts[0]; i++) {
        calling("layout %s g %" PRIu64, told(layouts[i].shape), layouts[i].g);
        struct gorvlime_counts c = CALL(layout)(layouts[i].shape, layouts[i].g);
        same("refusal", c.refusal, layouts[i].refusal);
        for (unsigned j = 0; j < 16; j++)
            same("a count", c.h[j], layouts[i].h[j]);
    }
}

#define FALLING RANGES(2, 3, 20, 4, 2)
#define RISING RANGES(2, 3, 2, 4, 20)
#define EQUAL RANGES(2, 3, 4, 4, 4)
#define LEFT_OVER RANGES(2, 2, 20, 20)   /* has bits behind its last wit */

static const struct {
    struct gorvlime_shape shape;
    const char *cells;
    uint64_t refusal, generation, number, left, unerased;
} reads[] = {
    {FALLING, "00", 11, 0, 0, 0, 0},
    {FALLING, "01", 0, 1, 0, 2, 0},
    {FALLING, "0A", 0, 1, 16, 2, 0},
    {FALLING, "0E", 0, 1, 19, 2, 0},
    {FALLING, "0F", 16, 1, 0, 0, 0},
    {FALLING, "1F", 0, 2, 0, 1, 0},
    {FALLING, "8F", 0, 2, 3, 1, 0},
    {FALLING, "3F", 15, 2, 0, 0, 1},
    {FALLING, "DF", 0, 3, 0, 0, 0},
    {FALLING, "EF", 0, 3, 1, 0, 0},
    {FALLING, "FF", 15, 3, 0, 0, 0},
    {FALLING, "55", 15, 3, 0, 0, 4},
    {FALLING, "", 3, 0, 0, 0, 0},
    {FALLING, "00 00", 3, 0, 0, 0, 0},
    {LEFT_OVER, "00 00", 11, 0, 0, 0, 0},
    {LEFT_OVER, "00 01", 3, 0, 0, 0, 0},
    {RANGES(2, 3, 20, 4, 1), "0E", 1, 0, 0, 0, 0},
    {RANGES(2, 3, 20, 4, 1), "", 1, 0, 0, 0, 0},
};

static void check_reads(void)
{
    for (size_t i = 0; i < sizeof reads / sizeof reads[0]; i++) {
        struct lent cells = lend(reads[i].cells);
        calling("read %s cells %s", told(reads[i].shape), reads[i].cells);
        struct gorvlime_reading r = CALL(read)(reads[i].shape, LENT(cells));
        same("refusal", r.refusal, reads[i].refusal);
        same("generation", r.generation, reads[i].generation);
        same("number", r.number, reads[i].number);
        same("left", r.left, reads[i].left);
        same("unerased", r.unerased, reads[i].unerased);
        holds(&cells, reads[i].cells);
    }
}

/* As in tests/calls.c, `after` is only given where the cells change. */
static const struct {
    struct gorvlime_shape shape;
    const char *cells;
    uint64_t number, refusal, generation, turned, unerased;
    const char *after;
} writes[] = {
    {FALLING, "00", 0, 0, 1, 1, 0, "01"},
    {FALLING, "00", 19, 0, 1, 3, 0, "0E"},
    {FALLING, "0E", 0, 0, 2, 2, 0, "1F"},
    {FALLING, "0E", 3, 0, 2, 2, 0, "8F"},
    {FALLING, "8F", 0, 0, 3, 2, 0, "DF"},
    {FALLING, "8F", 1, 0, 3, 2, 0, "EF"},
    /* 6 goes by the range of the generation that would take the number, not by that of the one read. */
    {FALLING, "00", 20, 6, 0, 0, 0, NULL},
    {FALLING, "0E", 4, 6, 0, 0, 0, NULL},
    {FALLING, "0E", 19, 6, 0, 0, 0, NULL},
    {FALLING, "8F", 2, 6, 0, 0, 0, NULL},
    {FALLING, "8F", 3, 6, 0, 0, 0, NULL},
    {RISING, "00 00", 2, 6, 0, 0, 0, NULL},
    {RISING, "00 40", 4, 6, 0, 0, 0, NULL},
    /* The order of the tests: 1, 3, 15, 16, 5, 6. */
    {RANGES(2, 3, 20, 4, 1), "", 99, 1, 0, 0, 0, NULL},
    {FALLING, "", 99, 3, 0, 0, 0, NULL},
    {LEFT_OVER, "00 01", 99, 3, 0, 0, 0, NULL},
    {FALLING, "FF", 99, 15, 3, 0, 0, NULL},
    {FALLING, "3F", 99, 15, 2, 0, 1, NULL},
    {FALLING, "43", 99, 16, 1, 0, 0, NULL},
    {EQUAL, "0F", 9, 15, 2, 0, 2, NULL},
    {EQUAL, "43", 9, 16, 2, 0, 0, NULL},
    {EQUAL, "4F", 9, 5, 0, 0, 0, NULL},
    {FALLING, "EF", 0, 5, 0, 0, 0, NULL},
    {FALLING, "EF", 1, 5, 0, 0, 0, NULL},
    {FALLING, "EF", 2, 5, 0, 0, 0, NULL},
    {FALLING, "EF", UINT64_MAX, 5, 0, 0, 0, NULL},
    {FALLING, "8F", UINT64_MAX, 6, 0, 0, 0, NULL},
};

static void check_writes(void)
{
    for (size_t i = 0; i < sizeof writes / sizeof writes[0]; i++) {
        struct lent cells = lend(writes[i].cells);
        calling("write %s cells %s number %" PRIu64, told(writes[i].shape), writes[i].cells, writes[i].number);
        struct gorvlime_writing w = CALL(write)(writes[i].shape, LENT(cells), writes[i].number);
        same("refusal", w.refusal, writes[i].refusal);
        same("generation", w.generation, writes[i].generation);
        same("turned", w.turned, writes[i].turned);
        same("unerased", w.unerased, writes[i].unerased);
        holds(&cells, writes[i].after != NULL ? writes[i].after : writes[i].cells);
    }
}

/* Every call that takes a shape is refused with 1, tells nothing else and stores nothing. */
static void check_refused(struct gorvlime_shape shape)
{
    static const uint64_t numbers[1];
    struct lent cells = lend("00"), out = lend_room(MOST_LENT);
    calling("%" PRIu64 " ranges given: %s", shape.count, told(shape));
    struct gorvlime_counts c = CALL(layout)(shape, 256), no_counts = {.refusal = 1};
    struct gorvlime_reading r = CALL(read)(shape, LENT(cells)), no_reading = {.refusal = 1};
    struct gorvlime_writing w = CALL(write)(shape, LENT(cells), 0), no_writing = {.refusal = 1};
    struct gorvlime_many m = CALL(write_many)(shape, LENT(cells), numbers, 1), no_many = {.refusal = 1};
    struct gorvlime_stored l = CALL(export_layout)(shape, LENT(out));
    struct gorvlime_stored e = CALL(export_record)(7, 0, shape, LENT(cells), LENT(out));
    same("layout refused with 1 alone", memcmp(&c, &no_counts, sizeof c), 0);
    same("read refused with 1 alone", memcmp(&r, &no_reading, sizeof r), 0);
    same("write refused with 1 alone", memcmp(&w, &no_writing, sizeof w), 0);
    same("write many refused with 1 alone", memcmp(&m, &no_many, sizeof m), 0);
    same("refusal of the layout's export", l.refusal, 1);
    same("refusal of the record's export", e.refusal, 1);
    same("their lengths", l.length + e.length, 0);
    holds(&cells, "00");
    holds(&out, "");
}

/* Every other count but the one that is due: few, many, and some that are due if only their low bits count. */
static void check_counts(struct gorvlime_shape shape, uint64_t due)
{
    const uint64_t counts[] = {
        0, 1, 2, shape.t - 1, shape.t, shape.t + 1, 15, 16, 17, 64, 256 + due, BIT_32 + due, UINT64_MAX,
    };
    for (size_t i = 0; i < sizeof counts / sizeof counts[0]; i++) {
        shape.count = counts[i];
        if (counts[i] != due)
            check_refused(shape);
    }
    shape.count = due;
    calling("%" PRIu64 " ranges given: %s", due, told(shape));
    same("refusal of the count that is due", CALL(layout)(shape, 256).refusal, 0);
}

/* All that the array has room for is in bounds, so that the count alone refuses. Form 3 has no count. */
static void check_wrong_counts(void)
{
    struct gorvlime_shape shape = {.m = 2};
    for (unsigned i = 0; i < GORVLIME_RANGES_MOST; i++)
        shape.v[i] = 4;
    for (shape.t = 2; shape.t <= 16; shape.t++) {
        for (shape.form = 0; shape.form <= 2; shape.form++)
            check_counts(shape, shape.form == 2 ? shape.t : 1);
        for (shape.count = 0; shape.count <= 17; shape.count++)
            check_refused(shape);
    }
}

/* Every range is tested: each in its turn is out of bounds, and then at a bound. */
static void check_each_range(void)
{
    static const uint64_t out_of_bounds[] = {0, 1, RANGE + 1, BIT_32 << 31, UINT64_MAX}, at_bounds[] = {2, RANGE};
    struct gorvlime_shape shape = {.form = 2, .m = 3};
    for (shape.t = shape.count = 2; shape.t <= 16; shape.count = ++shape.t) {
        for (unsigned i = 0; i < shape.t; i++) {
            for (unsigned j = 0; j < GORVLIME_RANGES_MOST; j++)
                shape.v[j] = 4;
            for (size_t j = 0; j < sizeof out_of_bounds / sizeof out_of_bounds[0]; j++) {
                shape.v[i] = out_of_bounds[j];
                check_refused(shape);
            }
            for (size_t j = 0; j < sizeof at_bounds / sizeof at_bounds[0]; j++) {
                shape.v[i] = at_bounds[j];
                calling("layout %s", told(shape));
                same("refusal at a bound", CALL(layout)(shape, 256).refusal, 0);
            }
        }
    }
}

/* What two shapes are answered on the same bytes, and the cells that they leave. */
struct answers {
    struct gorvlime_counts counts;
    struct gorvlime_reading reading;
    struct gorvlime_writing writing;
    struct gorvlime_many many;
    struct gorvlime_stored layout, record;
    struct lent cells, fields, out;
};

static struct answers answers_of(struct gorvlime_shape shape, const struct lent *cells, uint64_t number)
{
    struct answers a = {.counts = CALL(layout)(shape, 256), .cells = *cells, .fields = *cells, .out = lend_room(MOST_LENT)};
    a.reading = CALL(read)(shape, LENT(*cells));
    a.writing = CALL(write)(shape, LENT(a.cells), number);
    a.many = CALL(write_many)(shape, LENT(a.fields), &number, 1);
    a.layout = CALL(export_layout)(shape, LENT(a.out));
    a.record = CALL(export_record)(7, 0, shape, LENT(*cells), a.out.all + MARGIN + a.layout.length, 64);
    return a;
}

/* What stands behind the ranges given changes no answer. */
static void check_junk(struct gorvlime_shape clean)
{
    static const uint64_t junk[] = {1, 3, RANGE, RANGE + 1, UINT64_MAX};
    struct lent cells = lend_blank(clean);
    for (uint64_t i = 1; i <= clean.t; i++) {
        struct answers expected = answers_of(clean, &cells, range_at(&clean, i) - 1);
        for (size_t j = 0; j < sizeof junk / sizeof junk[0]; j++) {
            struct gorvlime_shape shape = clean;
            for (uint64_t k = clean.count; k < GORVLIME_RANGES_MOST; k++)
                shape.v[k] = junk[j];
            struct answers got = answers_of(shape, &cells, range_at(&clean, i) - 1);
            calling("write %" PRIu64 " of %s, behind it %" PRIu64, i, told(shape), junk[j]);
            same("accepted", got.writing.refusal + got.many.refusal + got.layout.refusal + got.record.refusal, 0);
            same("other answers", memcmp(&got, &expected, sizeof got) != 0, 0);
        }
        cells = expected.cells;
    }
}

void check_ranges(void)
{
    static const struct gorvlime_shape shapes[] = {
        ONE_RANGE(0, 2, 3, 4), ONE_RANGE(1, 2, 2, 20), ONE_RANGE(0, 2, 10, RANGE), FALLING, RISING, EQUAL, LEFT_OVER,
        RANGES(4, 5, 300, RANGE, 2, 1000, 17),
    };
    check_layouts();
    check_reads();
    check_writes();
    check_wrong_counts();
    check_each_range();
    for (size_t i = 0; i < sizeof shapes / sizeof shapes[0]; i++)
        check_junk(shapes[i]);
}
