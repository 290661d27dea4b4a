/* Checks of many fields that one call writes: against values, and against single writes one after the other. */
#include "chosen.h"
#include "chain.h"
#include "check.h"

#include <inttypes.h>
#include <string.h>

enum { MOST_STRIP = GORVLIME_MANY * GORVLIME_CELLS_MOST, TOO_MANY = GORVLIME_MANY + 1 };

static void same_many(struct gorvlime_many got, struct gorvlime_many expected)
{
    same("refusal", got.refusal, expected.refusal);
    same("stopped", got.stopped, expected.stopped);
    same("field", got.field, expected.field);
    same("written", got.written, expected.written);
    same("generation of the refused field", got.refused_generation, expected.refused_generation);
    same("unerased groups of the refused field", got.refused_unerased, expected.refused_unerased);
    for (unsigned i = 0; i < GORVLIME_MANY; i++) {
        same("a generation", got.generation[i], expected.generation[i]);
        same("a turned count", got.turned[i], expected.turned[i]);
    }
}

/* Where the cells stay as they are, `after` is not given. */
static const struct {
    struct gorvlime_shape shape;
    const char *cells;
    size_t count;
    uint64_t numbers[3];
    struct gorvlime_many expected;
    const char *after;
} writes[] = {
    {ONE_RANGE(0, 2, 3, 4), "00 00 00", 3, {3, 1, 2}, {0, 0, 0, 3, 0, 0, {1, 1, 1}, {2, 1, 1}}, "03 01 02"},
    {ONE_RANGE(0, 2, 3, 4), "03 0B 00", 3, {1, 2, 0}, {0, 0, 0, 3, 0, 0, {2, 3, 1}, {1, 2, 0}}, "0B 4F 00"},
    {ONE_RANGE(1, 2, 3, 4), "00 00 00", 3, {0, 0, 0}, {0, 0, 0, 3, 0, 0, {1, 1, 1}, {1, 1, 1}}, "01 01 01"},
    {ONE_RANGE(0, 2, 3, 4), "00", 1, {0}, {0, 0, 0, 1, 0, 0, {1}, {0}}, NULL},
    {ONE_RANGE(0, 2, 3, 4), "", 0, {0}, {0}, NULL},
    /* A stop, its refusal and its field. */
    {ONE_RANGE(0, 2, 3, 4), "03 4F 00", 3, {1, 1, 1}, {5, 1, 1, 1, 0, 0, {2}, {1}}, "0B 4F 00"},
    {ONE_RANGE(0, 2, 3, 4), "00 00 00", 3, {3, 4, 2}, {6, 1, 1, 1, 0, 0, {1}, {2}}, "03 00 00"},
    {ONE_RANGE(0, 2, 3, 4), "00 43 00", 3, {3, 1, 2}, {16, 1, 1, 1, 2, 0, {1}, {2}}, "03 43 00"},
    {ONE_RANGE(0, 2, 3, 4), "03 0F 00", 3, {1, 1, 1}, {15, 1, 1, 1, 2, 2, {2}, {1}}, "0B 0F 00"},
    {ONE_RANGE(0, 2, 3, 4), "00 00 FF", 3, {3, 1, 2}, {15, 1, 2, 2, 3, 0, {1, 1}, {2, 1}}, "03 01 FF"},
    {ONE_RANGE(0, 2, 3, 4), "54", 1, {3}, {15, 1, 0, 0, 3, 4, {0}, {0}}, NULL},
    {ONE_RANGE(0, 2, 3, 4), "4F 00 00", 3, {3, 1, 2}, {5, 1, 0, 0, 0, 0, {0}, {0}}, NULL},
    {ONE_RANGE(0, 2, 2, 20), "00 40 00 41 00 40", 3, {0, 0, 0}, {3, 1, 1, 1, 0, 0, {2}, {4}}, "C1 C0 00 41 00 40"},
    {ONE_RANGE(0, 2, 2, 20), "00 01", 1, {0}, {3, 1, 0, 0, 0, 0, {0}, {0}}, NULL},
    /* The order of the tests at a field: 3, 6, 15, 16, 5. */
    {ONE_RANGE(0, 2, 2, 20), "00 00 02 81", 2, {16, 20}, {3, 1, 1, 1, 0, 0, {1}, {2}}, "01 40 02 81"},
    {ONE_RANGE(0, 2, 2, 20), "00 00 FF C0", 2, {16, 20}, {6, 1, 1, 1, 0, 0, {1}, {2}}, "01 40 FF C0"},
    {ONE_RANGE(0, 2, 2, 20), "00 00 02 80", 2, {16, 20}, {6, 1, 1, 1, 0, 0, {1}, {2}}, "01 40 02 80"},
    {ONE_RANGE(0, 2, 2, 20), "00 00 C1 C0", 2, {16, UINT64_MAX}, {6, 1, 1, 1, 0, 0, {1}, {2}}, "01 40 C1 C0"},
    {ONE_RANGE(0, 2, 2, 20), "00 00 FF C0", 2, {16, 19}, {15, 1, 1, 1, 2, 0, {1}, {2}}, "01 40 FF C0"},
    {ONE_RANGE(0, 2, 2, 20), "00 00 02 80", 2, {16, 19}, {16, 1, 1, 1, 1, 0, {1}, {2}}, "01 40 02 80"},
    {ONE_RANGE(0, 2, 2, 20), "00 00 C1 C0", 2, {16, 19}, {5, 1, 1, 1, 0, 0, {1}, {2}}, "01 40 C1 C0"},
    /* In form 2 each field has the range of its own generation. */
    {RANGES(2, 3, 20, 4, 2), "00 0E 8F", 3, {19, 3, 1}, {0, 0, 0, 3, 0, 0, {1, 2, 3}, {3, 2, 2}}, "0E 8F EF"},
    {RANGES(2, 3, 20, 4, 2), "00 0E 00", 3, {19, 4, 0}, {6, 1, 1, 1, 0, 0, {1}, {3}}, "0E 0E 00"},
    {RANGES(2, 3, 20, 4, 2), "00 0E 8F", 3, {19, 3, 2}, {6, 1, 2, 2, 0, 0, {1, 2}, {3, 2}}, "0E 8F 8F"},
    /* The order of its tests at a field: 3, 15, 16, 5, 6. */
    {RANGES(2, 2, 20, 20), "00 00 02 81", 2, {16, 20}, {3, 1, 1, 1, 0, 0, {1}, {2}}, "01 80 02 81"},
    {RANGES(2, 2, 20, 20), "00 00 FF C0", 2, {16, 20}, {15, 1, 1, 1, 2, 0, {1}, {2}}, "01 80 FF C0"},
    {RANGES(2, 2, 20, 20), "00 00 02 C0", 2, {16, 20}, {16, 1, 1, 1, 1, 0, {1}, {2}}, "01 80 02 C0"},
    {RANGES(2, 2, 20, 20), "00 00 C1 C0", 2, {16, UINT64_MAX}, {5, 1, 1, 1, 0, 0, {1}, {2}}, "01 80 C1 C0"},
    {RANGES(2, 2, 20, 20), "00 00 00 40", 2, {16, 20}, {6, 1, 1, 1, 0, 0, {1}, {2}}, "01 80 00 40"},
    /* And of all fields, before any is written: 1, 3. */
    {ONE_RANGE(0, 5, 3, 4), "00 00", 2, {3, 1}, {.refusal = 1}, NULL},
    {ONE_RANGE(0, 5, 3, 4), "00", 0, {0}, {.refusal = 1}, NULL},
    {ONE_RANGE(3, 2, 3, 4), "00", 1, {3}, {.refusal = 1}, NULL},
    {RANGES(2, 3, 20, 4, 1), "00", 1, {3}, {.refusal = 1}, NULL},
    {ONE_RANGE(0, 2, 17, 4), "", 1, {4}, {.refusal = 1}, NULL},
    {ONE_RANGE(0, 2, 3, RANGE + 1), "", 0, {0}, {.refusal = 1}, NULL},
    {ONE_RANGE(0, 2, 3, 4), "00", 0, {0}, {.refusal = 3}, NULL},
    {ONE_RANGE(0, 2, 3, 4), "", 1, {3}, {.refusal = 3}, NULL},
    {ONE_RANGE(0, 2, 3, 4), "00 00", 3, {3, 3, 3}, {.refusal = 3}, NULL},
    {ONE_RANGE(0, 2, 3, 4), "00 00 00 00", 3, {4, 3, 3}, {.refusal = 3}, NULL},
    {ONE_RANGE(0, 2, 2, 20), "00 00 00", 3, {3, 3, 3}, {.refusal = 3}, NULL},
    {ONE_RANGE(0, 2, 2, 20), "00 00 00 00 00", 3, {3, 3, 3}, {.refusal = 3}, NULL},
};

static void check_values(void)
{
    calling("write many");
    same("bytes of an answer", sizeof(struct gorvlime_many), 304);
    for (size_t i = 0; i < sizeof writes / sizeof writes[0]; i++) {
        struct lent cells = lend(writes[i].cells);
        calling("write many %zu, cells %s", i, writes[i].cells);
        same_many(CALL(write_many)(writes[i].shape, LENT(cells), writes[i].numbers, writes[i].count), writes[i].expected);
        holds(&cells, writes[i].after != NULL ? writes[i].after : writes[i].cells);
    }
}

/* One number too many is refused whatever else is wrong. */
static void check_too_many(void)
{
    static const struct gorvlime_shape shapes[] = {
        ONE_RANGE(0, 2, 3, 4), ONE_RANGE(0, 5, 3, 4), ONE_RANGE(3, 2, 3, 4), RANGES(2, 3, 4, 4, 4), {0},
    };
    static const uint64_t numbers[2 * GORVLIME_MANY];
    for (unsigned i = 0; i < sizeof shapes / sizeof shapes[0]; i++) {
        for (size_t count = TOO_MANY; count <= 2 * GORVLIME_MANY; count += GORVLIME_MANY - 1) {
            calling("write many of %zu numbers, shape %u", count, i);
            struct lent fitting = lend_room(count), none = lend_room(0);
            same_many(CALL(write_many)(shapes[i], LENT(fitting), numbers, count), (struct gorvlime_many){.refusal = 14});
            holds(&fitting, "");
            same_many(CALL(write_many)(shapes[i], LENT(none), numbers, count), (struct gorvlime_many){.refusal = 14});
            holds(&none, "");
        }
    }
}

/* As many fields as a call may have, and a number for each. */
struct strip {
    struct gorvlime_shape shape;
    size_t wits, bytes;   /* of one field */
    size_t last;          /* its groups in the last generation */
    uint64_t numbers[GORVLIME_MANY];
    uint8_t all[MARGIN + MOST_STRIP + MARGIN];
};

static uint8_t *field_of(struct strip *s, size_t i)
{
    return s->all + MARGIN + i * s->bytes;
}

/* How often a field has been written when its strip is lent: less than t times, so that each has a write left. */
static uint64_t times_written(const struct strip *s, size_t i)
{
    return i % s->shape.t;
}

/* The range of the generation that the number of a field is to be put into. */
static uint64_t range_due(const struct strip *s, size_t i)
{
    return range_at(&s->shape, times_written(s, i) + 1);
}

/* Each number is in range. */
static struct strip lend_strip(struct gorvlime_shape shape)
{
    struct gorvlime_counts counts = CALL(layout)(shape, 256);
    struct strip s = {.shape = shape, .wits = shape.m * counts.h[0], .last = counts.h[shape.t - 1]};
    s.bytes = (s.wits + 7) / 8;
    memset(s.all, UNTOUCHED, sizeof s.all);
    memset(field_of(&s, 0), 0, GORVLIME_MANY * s.bytes);
    for (size_t i = 0; i < GORVLIME_MANY; i++) {
        s.numbers[i] = (i + 1) * 0x9e3779b97f4a7c15 % range_due(&s, i);
        for (uint64_t j = 0; j < times_written(&s, i); j++)
            CALL(write)(shape, field_of(&s, i), s.bytes, 1 + j % (range_at(&shape, j + 1) - 1));
    }
    return s;
}

/* Single writes in order, up to the first that is refused. */
static struct gorvlime_many write_singly(struct strip *s, size_t count)
{
    struct gorvlime_many expected = {0};
    for (size_t i = 0; i < count; i++) {
        struct gorvlime_writing w = CALL(write)(s->shape, field_of(s, i), s->bytes, s->numbers[i]);
        if (w.refusal != 0) {
            expected.refusal = w.refusal;
            expected.stopped = 1;
            expected.field = i;
            expected.refused_generation = w.generation;
            expected.refused_unerased = w.unerased;
            break;
        }
        expected.written++;
        expected.generation[i] = (uint16_t)w.generation;
        expected.turned[i] = (uint16_t)w.turned;
    }
    return expected;
}

/* All numbers, cells, and bytes around them are what single writes leave. Answers what they were answered. */
static struct gorvlime_many check_beside_single(struct strip *s, size_t count)
{
    struct strip single = *s;
    struct gorvlime_many expected = write_singly(&single, count);
    same_many(CALL(write_many)(s->shape, field_of(s, 0), count * s->bytes, s->numbers, count), expected);
    same("cells that differ, or bytes around them", memcmp(s->all, single.all, sizeof s->all) != 0, 0);
    same("numbers that were changed", memcmp(s->numbers, single.numbers, sizeof s->numbers) != 0, 0);
    return expected;
}

/* Another count of bytes than the fields have, among those that there are. */
static void check_length(struct strip *s, size_t count, size_t bytes)
{
    struct strip before = *s;
    if (bytes == count * s->bytes || bytes > GORVLIME_MANY * s->bytes)
        return;
    same_many(CALL(write_many)(s->shape, field_of(s, 0), bytes, s->numbers, count), (struct gorvlime_many){.refusal = 3});
    same("cells that were changed", memcmp(s->all, before.all, sizeof s->all) != 0, 0);
}

static void check_counts(struct gorvlime_shape shape)
{
    static const size_t counts[] = {0, 1, 2, GORVLIME_MANY - 1, GORVLIME_MANY};
    for (unsigned i = 0; i < sizeof counts / sizeof counts[0]; i++) {
        struct strip s = lend_strip(shape);
        size_t count = counts[i];
        calling("write many of %s, %zu numbers", told(shape), count);
        check_length(&s, count, 0);
        check_length(&s, count, count * s.bytes - 1);
        check_length(&s, count, count * s.bytes + 1);
        check_length(&s, count, (count - 1) * s.bytes);
        check_length(&s, count, (count + 1) * s.bytes);
        same("written", check_beside_single(&s, count).written, count);
    }
}

/* The last groups of a field hold the highest digit, those before them are all ones. */
static void set_highest(struct strip *s, uint8_t *cells, size_t unerased)
{
    size_t m = s->shape.m, erased = s->wits / m - unerased;
    memset(cells, 0, s->bytes);
    for (size_t wit = 0; wit < s->wits; wit++)
        if (wit / m < erased || wit % m < m - 1)
            cells[wit / 8] |= 0x80 >> wit % 8;
}

/* Makes the write of a field be refused with 6, 3, 5, 15 or 16. In the last generation, one unerased group more is 15. */
static void spoil(struct strip *s, size_t i, uint64_t refusal)
{
    uint8_t *cells = field_of(s, i);
    if (refusal == 6)
        s->numbers[i] = range_due(s, i);
    if (refusal == 3)
        cells[s->bytes - 1] |= 1;
    for (uint64_t j = 0; refusal == 5 && j < s->shape.t; j++)
        CALL(write)(s->shape, cells, s->bytes, 1);
    if (refusal == 15)
        set_highest(s, cells, s->last + 1);
    if (refusal == 16)
        set_highest(s, cells, s->last);
}

/* Behind the field stand one that could be written and another fault; neither is reached. */
static void check_stops(struct gorvlime_shape shape)
{
    static const uint64_t refusals[] = {6, 3, 5, 15, 16};
    static const size_t places[] = {0, 1, 31, GORVLIME_MANY - 2, GORVLIME_MANY - 1};
    for (unsigned i = 0; i < 5 * sizeof places / sizeof places[0]; i++) {
        struct strip s = lend_strip(shape);
        uint64_t refusal = refusals[i % 5];
        size_t place = places[i / 5];
        if (refusal == 3 && s.wits % 8 == 0)
            continue;
        spoil(&s, place, refusal);
        if (place + 2 < GORVLIME_MANY)
            spoil(&s, place + 2, 6);
        calling("write many of %s, field %zu refused with %" PRIu64, told(shape), place, refusal);
        struct gorvlime_many stop = check_beside_single(&s, GORVLIME_MANY);
        same("the field that was spoilt", stop.field, place);
        same("fields before it", stop.written, place);
        same("its refusal", stop.refusal, refusal);
        same("its generation", stop.refused_generation, refusal >= 15 ? shape.t : 0);
        same("its unerased groups", stop.refused_unerased, refusal == 15 ? s.last + 1 : 0);
    }
}

/* Quarter after quarter from blank fields to spent ones, and one more. */
static void check_quarters(struct gorvlime_shape shape)
{
    struct strip s = lend_strip(shape);
    memset(field_of(&s, 0), 0, GORVLIME_MANY * s.bytes);
    for (uint64_t i = 1; i <= shape.t; i++) {
        for (uint64_t j = 0; j < GORVLIME_MANY; j++)
            s.numbers[j] = 1 + j % (range_at(&shape, i) - 1);   /* a 0 would leave blank fields of form 0 blank */
        calling("write many of %s, time %" PRIu64, told(shape), i);
        struct gorvlime_many all = check_beside_single(&s, GORVLIME_MANY);
        same("fields written", all.written, GORVLIME_MANY);
        same("generation of the last", all.generation[GORVLIME_MANY - 1], i);
    }
    same("refusal of one more", check_beside_single(&s, GORVLIME_MANY).refusal, 5);
}

void check_many_fields(void)
{
    /* Fields of one byte, with and without left-over bits, the drives' fields, and the longest ones. */
    static const struct gorvlime_shape shapes[] = {
        ONE_RANGE(0, 2, 3, 4), ONE_RANGE(1, 2, 2, 20), ONE_RANGE(0, 3, 3, 100), ONE_RANGE(0, 2, 10, RANGE),
        ONE_RANGE(1, 2, 10, RANGE), ONE_RANGE(1, 3, 16, RANGE), ONE_RANGE(0, 4, 16, RANGE),
        RANGES(2, 3, 20, 4, 3), RANGES(3, 3, 2, RANGE, 100), RANGES(2, 4, RANGE, RANGE >> 20, 1000, 3),
    };
    check_values();
    check_too_many();
    for (unsigned i = 0; i < sizeof shapes / sizeof shapes[0]; i++) {
        check_counts(shapes[i]);
        check_stops(shapes[i]);
        check_quarters(shapes[i]);
    }
}
