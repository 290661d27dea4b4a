/* The calls that make a new dump and go through it: export of a layout and of a record, the list, a step, and a walk. */
#include "chosen.h"
#include "check.h"
#include "walks.h"

#include <inttypes.h>
#include <stdlib.h>
#include <string.h>

#define BIT_32 ((uint64_t)1 << 32)

/* `out` is what is stored; the lent output has `room` bytes, and those behind it stay. */
static const struct {
    struct gorvlime_shape shape;
    size_t room;
    uint64_t refusal, length;
    const char *out;
} layouts[] = {
    {ONE_RANGE(0, 2, 3, 4), 4, 0, 4, "00 02 03 04"},
    {ONE_RANGE(1, 2, 3, 4), 4, 0, 4, "01 02 03 04"},
    {ONE_RANGE(1, 2, 3, 4), 9, 0, 4, "01 02 03 04"},
    {ONE_RANGE(1, 2, 3, 4), 3, 9, 0, ""},
    {ONE_RANGE(1, 2, 3, 4), 0, 9, 0, ""},
    {ONE_RANGE(0, 4, 16, 127), 4, 0, 4, "00 04 10 7F"},
    {ONE_RANGE(0, 4, 16, 128), 5, 0, 5, "00 04 10 80 01"},
    {ONE_RANGE(0, 4, 16, 128), 4, 9, 0, ""},
    {ONE_RANGE(1, 2, 10, RANGE), 12, 0, 12, "01 02 0A 80 80 80 80 80 80 80 80 01"},
    {ONE_RANGE(1, 2, 10, RANGE), 11, 9, 0, ""},
    /* The order of the tests: 1, 9. */
    {ONE_RANGE(3, 2, 3, 4), 4, 1, 0, ""},
    {ONE_RANGE(3, 2, 3, 4), 0, 1, 0, ""},
    {ONE_RANGE(0, 1, 3, 4), 0, 1, 0, ""},
    {ONE_RANGE(0, 5, 3, 4), 4, 1, 0, ""},
    {ONE_RANGE(0, 2, 1, 4), 4, 1, 0, ""},
    {ONE_RANGE(0, 2, 17, 4), 4, 1, 0, ""},
    {ONE_RANGE(0, 2, 3, 1), 4, 1, 0, ""},
    {ONE_RANGE(0, 2, 3, RANGE + 1), 100, 1, 0, ""},
    {ONE_RANGE(256, 2, 3, 4), 100, 1, 0, ""},
    {ONE_RANGE(BIT_32, 2, 3, 4), 100, 1, 0, ""},
    {ONE_RANGE(UINT64_MAX, UINT64_MAX, UINT64_MAX, UINT64_MAX), 100, 1, 0, ""},
};

static void check_layouts(void)
{
    for (size_t i = 0; i < sizeof layouts / sizeof layouts[0]; i++) {
        struct lent out = lend_room(layouts[i].room);
        calling("export of layout %s into %zu", told(layouts[i].shape), out.count);
        struct gorvlime_stored e = CALL(export_layout)(layouts[i].shape, LENT(out));
        same("refusal", e.refusal, layouts[i].refusal);
        same("length", e.length, layouts[i].length);
        holds(&out, layouts[i].out);
    }
}

static const struct {
    uint64_t serial, layout;
    struct gorvlime_shape shape;
    const char *cells;
    size_t room;
    uint64_t refusal, length;
    const char *out;
} records[] = {
    {7, 0, ONE_RANGE(0, 2, 3, 4), "4F", 4, 0, 4, "07 00 01 4F"},
    {7, 0, ONE_RANGE(0, 2, 3, 4), "4F", 9, 0, 4, "07 00 01 4F"},
    {7, 0, ONE_RANGE(0, 2, 3, 4), "4F", 3, 9, 0, ""},
    {7, 0, ONE_RANGE(0, 2, 3, 4), "4F", 0, 9, 0, ""},
    {300, 63, ONE_RANGE(0, 2, 2, 20), "00 40", 6, 0, 6, "AC 02 3F 02 00 40"},
    {300, 63, ONE_RANGE(0, 2, 2, 20), "00 40", 5, 9, 0, ""},
    {GORVLIME_SERIAL_MOST, 1, ONE_RANGE(1, 2, 3, 4), "01", 12, 0, 12, "FF FF FF FF FF FF FF FF 7F 01 01 01"},
    /* Cells that have no reading are exported too, blank ones of form 1 among them. */
    {9, 1, ONE_RANGE(0, 2, 2, 20), "02 80", 5, 0, 5, "09 01 02 02 80"},
    {8, 2, ONE_RANGE(1, 2, 3, 4), "00", 4, 0, 4, "08 02 01 00"},
    {0, 0, ONE_RANGE(1, 2, 3, 4), "FF", 4, 0, 4, "00 00 01 FF"},
    /* The order of the tests: 10, 1, 3, 9. */
    {GORVLIME_SERIAL_MOST + 1, 64, ONE_RANGE(3, 2, 3, 4), "", 0, 10, 0, ""},
    {UINT64_MAX, 0, ONE_RANGE(0, 2, 3, 4), "4F", 100, 10, 0, ""},
    {1, 64, ONE_RANGE(0, 2, 3, 4), "", 0, 1, 0, ""},
    {1, 64, ONE_RANGE(0, 2, 3, 4), "4F", 100, 1, 0, ""},
    {1, 256, ONE_RANGE(0, 2, 3, 4), "4F", 100, 1, 0, ""},
    {1, BIT_32, ONE_RANGE(0, 2, 3, 4), "4F", 100, 1, 0, ""},
    {1, UINT64_MAX, ONE_RANGE(0, 2, 3, 4), "4F", 100, 1, 0, ""},
    {1, 63, ONE_RANGE(3, 2, 3, 4), "4F", 100, 1, 0, ""},
    {1, 63, ONE_RANGE(0, 5, 3, 4), "", 0, 1, 0, ""},
    {1, 63, ONE_RANGE(0, 2, 3, 4), "", 0, 3, 0, ""},
    {1, 63, ONE_RANGE(0, 2, 3, 4), "00 00", 100, 3, 0, ""},
    {1, 63, ONE_RANGE(1, 2, 2, 20), "00 01", 100, 3, 0, ""},
};

static void check_records(void)
{
    for (size_t i = 0; i < sizeof records / sizeof records[0]; i++) {
        struct lent cells = lend(records[i].cells), out = lend_room(records[i].room);
        calling("export of record %" PRIu64 " layout %" PRIu64 " %s cells %s into %zu", records[i].serial,
                records[i].layout, told(records[i].shape), records[i].cells, out.count);
        struct gorvlime_stored e = CALL(export_record)(records[i].serial, records[i].layout, records[i].shape,
                                                        LENT(cells), LENT(out));
        same("refusal", e.refusal, records[i].refusal);
        same("length", e.length, records[i].length);
        holds(&cells, records[i].cells);
        holds(&out, records[i].out);
    }
}

#define NEW_DUMP \
    "02 00 02 03 04 00 02 02 14  07 00 01 4F  AC 02 01 02 00 40  08 00 01 00  09 01 02 02 80"
#define OLD_4 "01 00 02 03 04"
#define NEW_4 "01 01 02 03 04"
#define UNREADABLE_DUMP NEW_4 " 07 00 01 0F 08 00 01 08"
#define BROKEN {.refusal = 7}

static const struct {
    const char *dump;
    struct gorvlime_opened opened;
} lists[] = {
    {NEW_DUMP, {0, 0, 2, 9}},
    {"00", {0, 0, 0, 1}},
    {"00 80", {0, 0, 0, 1}},
    {OLD_4, {0, 0, 1, 5}},
    {OLD_4 " 80 00", {0, 0, 1, 5}},
    /* Out of bounds is not broken. */
    {"01 00 00 00 00", {0, 0, 1, 5}},
    {"02 7F 05 11 01 FF FF FF FF FF FF FF FF 7F 00 00 81 01", {0, 0, 2, 18}},
    {"", BROKEN},
    {"80", BROKEN},
    {"80 00", BROKEN},
    {"81 00 00 02 03 04", BROKEN},
    {"01", BROKEN},
    {"01 00 02 03", BROKEN},
    {"01 00 02 03 84", BROKEN},
    {"01 80 00 02 03 04", BROKEN},
    {"01 00 82 00 03 04", BROKEN},
    {"01 00 02 03 84 80 00", BROKEN},
    {"02 00 02 03 04", BROKEN},
    {"02 00 02 03 04 00 02 02", BROKEN},
    {"01 00 02 03 FF FF FF FF FF FF FF FF FF 01", BROKEN},
    {"FF FF FF FF FF FF FF FF FF 01", BROKEN},
    {"FF FF FF FF FF FF FF FF 7F", BROKEN},
    {"41", BROKEN},
    {"80 01", BROKEN},
};

static void same_opened(struct gorvlime_opened got, struct gorvlime_opened expected)
{
    same("refusal", got.refusal, expected.refusal);
    same("offset", got.offset, expected.offset);
    same("layouts", got.layouts, expected.layouts);
    same("first", got.first, expected.first);
}

static void same_step(struct gorvlime_found_new got, struct gorvlime_found_new expected)
{
    same("refusal", got.refusal, expected.refusal);
    same("offset", got.offset, expected.offset);
    same("records", got.records, expected.records);
    same("serial", got.serial, expected.serial);
    same("layout", got.layout, expected.layout);
    same("form", got.form, expected.form);
    same("m", got.m, expected.m);
    same("t", got.t, expected.t);
    same("v", got.v, expected.v);
    same("start", got.start, expected.start);
    same("length", got.length, expected.length);
    same("next", got.next, expected.next);
    same("refused", got.refused, expected.refused);
    same("generation", got.generation, expected.generation);
    same("number", got.number, expected.number);
    same("left", got.left, expected.left);
    same("unerased", got.unerased, expected.unerased);
}

/* A step and a walk are refused as the list is, at any offset and with any room. */
static void check_lists(void)
{
    for (size_t i = 0; i < sizeof lists / sizeof lists[0]; i++) {
        struct lent dump = lend(lists[i].dump);
        uint64_t rows[GORVLIME_ROW_NEW];
        calling("list of %s", lists[i].dump);
        same_opened(CALL(open_new)(LENT(dump)), lists[i].opened);
        for (size_t at = 0; lists[i].opened.refusal != 0 && at < 2 * dump.count + 2; at++) {
            same_step(CALL(step_new)(LENT(dump), at), (struct gorvlime_found_new)BROKEN);
            same_walk(CALL(walk_new)(LENT(dump), at, rows, GORVLIME_ROW_NEW), (struct gorvlime_walked)BROKEN);
            same_walk(CALL(walk_new)(LENT(dump), at, rows, 0), (struct gorvlime_walked)BROKEN);
        }
        holds(&dump, lists[i].dump);
    }
}

#define END {0}
#define STOP(where) {.refusal = 7, .offset = (where)}

static const struct {
    const char *dump;
    size_t at;
    struct gorvlime_found_new found;
} steps[] = {
    {NEW_DUMP, 9, {0, 0, 1, 7, 0, 0, 2, 3, 4, 12, 1, 13, 0, 3, 2, 0, 0}},
    {NEW_DUMP, 13, {0, 0, 1, 300, 1, 0, 2, 2, 20, 17, 2, 19, 0, 1, 1, 1, 0}},
    {NEW_DUMP, 19, {0, 0, 1, 8, 0, 0, 2, 3, 4, 22, 1, 23, 0, 1, 0, 3, 0}},
    {NEW_DUMP, 23, {0, 0, 1, 9, 1, 0, 2, 2, 20, 26, 2, 28, 16, 1, 0, 0, 0}},
    {NEW_DUMP, 28, END},
    {NEW_DUMP, 29, END},
    {NEW_DUMP, SIZE_MAX, END},
    /* Offsets inside the list: what stands there is read as a record. */
    {NEW_DUMP, 0, {0, 0, 1, 2, 0, 0, 2, 3, 4, 3, 2, 5, 3, 0, 0, 0, 0}},
    {NEW_DUMP, 1, STOP(1)},
    {NEW_DUMP, 4, {0, 0, 1, 4, 0, 0, 2, 3, 4, 7, 2, 9, 3, 0, 0, 0, 0}},
    {NEW_DUMP, 8, STOP(8)},
    {"00", 0, STOP(0)},
    {"00", 1, END},
    {"00 07 00 00", 1, STOP(1)},
    /* A record's own refusals. */
    {NEW_4 " 07 00 01 00", 5, {0, 0, 1, 7, 0, 1, 2, 3, 4, 8, 1, 9, 11, 0, 0, 0, 0}},
    {NEW_4 " 07 00 01 01", 5, {0, 0, 1, 7, 0, 1, 2, 3, 4, 8, 1, 9, 0, 1, 0, 2, 0}},
    {UNREADABLE_DUMP, 5, {0, 0, 1, 7, 0, 1, 2, 3, 4, 8, 1, 9, 15, 2, 0, 0, 2}},
    {UNREADABLE_DUMP, 9, {0, 0, 1, 8, 0, 1, 2, 3, 4, 12, 1, 13, 16, 1, 0, 0, 0}},
    {NEW_4 " 07 00 01 FF", 5, {0, 0, 1, 7, 0, 1, 2, 3, 4, 8, 1, 9, 15, 3, 0, 0, 0}},
    {NEW_4 " 07 00 00", 5, {0, 0, 1, 7, 0, 1, 2, 3, 4, 8, 0, 8, 3, 0, 0, 0, 0}},
    {"01 01 02 02 14 07 00 02 00 01", 5, {0, 0, 1, 7, 0, 1, 2, 2, 20, 8, 2, 10, 3, 0, 0, 0, 0}},
    {"01 03 02 03 04 07 00 01 4F", 5, {0, 0, 1, 7, 0, 3, 2, 3, 4, 8, 1, 9, 1, 0, 0, 0, 0}},
    {"01 00 05 03 04 07 00 01 4F", 5, {0, 0, 1, 7, 0, 0, 5, 3, 4, 8, 1, 9, 1, 0, 0, 0, 0}},
    {"01 00 02 11 04 07 00 00", 5, {0, 0, 1, 7, 0, 0, 2, 17, 4, 8, 0, 8, 1, 0, 0, 0, 0}},
    {"01 00 02 03 01 07 00 00", 5, {0, 0, 1, 7, 0, 0, 2, 3, 1, 8, 0, 8, 1, 0, 0, 0, 0}},
    /* A layout that is out of bounds says nothing of the others. */
    {"02 09 00 00 00 00 02 03 04 07 01 01 4F", 9, {0, 0, 1, 7, 1, 0, 2, 3, 4, 12, 1, 13, 0, 3, 2, 0, 0}},
    /* Equal layouts, each by its number. */
    {"02 00 02 03 04 00 02 03 04 07 01 01 4F", 9, {0, 0, 1, 7, 1, 0, 2, 3, 4, 12, 1, 13, 0, 3, 2, 0, 0}},
    /* A layout number out of the list, and some that are in it if only their low bits count. */
    {OLD_4 " 07 00 01 4F 08 01 01 4F", 9, STOP(9)},
    {OLD_4 " 08 01 01 4F", 5, STOP(5)},
    {OLD_4 " 08 80 01 01 4F", 5, STOP(5)},
    {OLD_4 " 08 80 02 01 4F", 5, STOP(5)},
    {OLD_4 " 08 80 80 80 80 10 01 4F", 5, STOP(5)},
    {OLD_4 " 08 FF FF FF FF FF FF FF FF 7F 01 4F", 5, STOP(5)},
    /* Not in shortest form, over nine bytes, cut off. */
    {OLD_4 " 88 00 00 01 4F", 5, STOP(5)},
    {OLD_4 " 08 80 00 01 4F", 5, STOP(5)},
    {OLD_4 " 08 00 81 00 4F", 5, STOP(5)},
    {OLD_4 " FF FF FF FF FF FF FF FF FF 01 00 01 4F", 5, STOP(5)},
    {OLD_4 " FF FF FF FF FF FF FF FF 7F 00 01 4F", 5,
     {0, 0, 1, GORVLIME_SERIAL_MOST, 0, 0, 2, 3, 4, 16, 1, 17, 0, 3, 2, 0, 0}},
    {OLD_4 " 08", 5, STOP(5)},
    {OLD_4 " 08 00", 5, STOP(5)},
    {OLD_4 " 08 00 01", 5, STOP(5)},
    {OLD_4 " 08 00 02 4F", 5, STOP(5)},
    {OLD_4 " 08 00 FF FF FF FF FF FF FF FF 7F 4F", 5, STOP(5)},
};

static void check_steps(void)
{
    for (size_t i = 0; i < sizeof steps / sizeof steps[0]; i++) {
        struct lent dump = lend(steps[i].dump);
        calling("step at %zu of the new dump %s", steps[i].at, steps[i].dump);
        same_step(CALL(step_new)(LENT(dump), steps[i].at), steps[i].found);
        holds(&dump, steps[i].dump);
    }
}

static const uint64_t new_rows[4][GORVLIME_ROW_NEW] = {
    {7, 0, 0, 2, 3, 4, 12, 1, 0, 3, 2, 0, 0},
    {300, 1, 0, 2, 2, 20, 17, 2, 0, 1, 1, 1, 0},
    {8, 0, 0, 2, 3, 4, 22, 1, 0, 1, 0, 3, 0},
    {9, 1, 0, 2, 2, 20, 26, 2, 16, 1, 0, 0, 0},
};

/* A walk of part of the dump, its rows beginning with the row `first`. */
static void check_walk(size_t dump_count, size_t at, size_t rows_count, unsigned first, struct gorvlime_walked expected)
{
    enum { NUMBERS = 6 * GORVLIME_ROW_NEW };
    struct lent dump = lend(NEW_DUMP);
    uint64_t rows[NUMBERS];
    for (size_t i = 0; i < NUMBERS; i++)
        rows[i] = NO_ROW;
    calling("walk from %zu of the first %zu bytes of a new dump, room for %zu numbers", at, dump_count, rows_count);
    same_walk(CALL(walk_new)(dump.all + MARGIN, dump_count, at, rows, rows_count), expected);
    for (size_t i = 0; i < NUMBERS; i++) {
        int filled = i < expected.rows * GORVLIME_ROW_NEW;
        same("a number of the rows", rows[i],
             filled ? new_rows[first + i / GORVLIME_ROW_NEW][i % GORVLIME_ROW_NEW] : NO_ROW);
    }
    holds(&dump, NEW_DUMP);
}

static void check_walks(void)
{
    check_walk(28, 9, 78, 0, (struct gorvlime_walked){0, 0, 4, 28, 1});
    check_walk(28, 9, 65, 0, (struct gorvlime_walked){0, 0, 4, 28, 1});
    /* The rows are used up: a step for the end is not taken. */
    check_walk(28, 9, 64, 0, (struct gorvlime_walked){0, 0, 4, 28, 0});
    check_walk(28, 9, 52, 0, (struct gorvlime_walked){0, 0, 4, 28, 0});
    check_walk(28, 9, 51, 0, (struct gorvlime_walked){0, 0, 3, 23, 0});
    check_walk(28, 9, 13, 0, (struct gorvlime_walked){0, 0, 1, 13, 0});
    check_walk(28, 13, 25, 1, (struct gorvlime_walked){0, 0, 1, 19, 0});
    check_walk(28, 19, 78, 2, (struct gorvlime_walked){0, 0, 2, 28, 1});
    check_walk(28, 28, 13, 0, (struct gorvlime_walked){0, 0, 0, 28, 1});
    check_walk(28, 29, 13, 0, (struct gorvlime_walked){0, 0, 0, 29, 1});
    check_walk(28, 13, 12, 0, (struct gorvlime_walked){0, 0, 0, 13, 0});
    check_walk(28, 9, 0, 0, (struct gorvlime_walked){0, 0, 0, 9, 0});
    check_walk(28, 8, 13, 0, (struct gorvlime_walked){7, 8, 0, 8, 0});
    check_walk(18, 13, 13, 0, (struct gorvlime_walked){7, 13, 0, 13, 0});
    /* Cut off at every byte: a broken list; then the whole records, and the end or refusal 7 where the next one starts. */
    static const size_t ends[] = {9, 13, 19, 23, 28};
    for (size_t count = 0; count < 9; count++)
        check_walk(count, 9, 78, 0, (struct gorvlime_walked)BROKEN);
    for (size_t count = 9, whole = 0; count <= 28; count++) {
        whole += whole < 4 && count == ends[whole + 1];
        int cut = count != ends[whole];
        check_walk(count, 9, 78, 0, (struct gorvlime_walked){cut ? 7 : 0, cut ? ends[whole] : 0, whole, ends[whole], !cut});
    }
}

/* What 15 and 16 carry stands in the rows. */
static void check_unreadable_rows(void)
{
    static const uint64_t expected[2 * GORVLIME_ROW_NEW] = {
        7, 0, 1, 2, 3, 4, 8, 1, 15, 2, 0, 0, 2,
        8, 0, 1, 2, 3, 4, 12, 1, 16, 1, 0, 0, 0,
    };
    struct lent dump = lend(UNREADABLE_DUMP);
    uint64_t rows[2 * GORVLIME_ROW_NEW];
    calling("walk of the new dump %s", UNREADABLE_DUMP);
    same_walk(CALL(walk_new)(LENT(dump), 5, rows, 2 * GORVLIME_ROW_NEW), (struct gorvlime_walked){.rows = 2, .next = 13});
    for (unsigned i = 0; i < 2 * GORVLIME_ROW_NEW; i++)
        same("a number of the rows", rows[i], expected[i]);
}

void check_new_dump_calls(void)
{
    check_layouts();
    check_records();
    check_lists();
    check_steps();
    check_walks();
    check_unreadable_rows();
}
