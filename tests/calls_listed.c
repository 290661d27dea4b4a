/* Checks of new dumps that list layouts of form 2, and of the call that gives a listed layout whole. */
#include "chosen.h"
#include "check.h"
#include "walks.h"

#include <inttypes.h>
#include <string.h>

#define FALLING RANGES(2, 3, 20, 4, 2)
#define LISTED "02 02 03 14 04 02"   /* the same in a list */

static const struct {
    struct gorvlime_shape shape;
    size_t room;
    uint64_t refusal, length;
    const char *out;
} layouts[] = {
    {FALLING, 6, 0, 6, LISTED},
    {FALLING, 100, 0, 6, LISTED},
    {FALLING, 5, 9, 0, ""},
    {FALLING, 0, 9, 0, ""},
    {RANGES(4, 2, 127, 128), 6, 0, 6, "02 04 02 7F 80 01"},
    {RANGES(4, 2, 127, 128), 5, 9, 0, ""},
    {RANGES(2, 2, 2, RANGE), 13, 0, 13, "02 02 02 02 80 80 80 80 80 80 80 80 01"},
    {RANGES(2, 2, 2, RANGE), 12, 9, 0, ""},
    {RANGES(3, 16, 2, 3, 4, 5, 6, 7, 8, 9, 10, 11, 12, 13, 14, 15, 16, 17), 19, 0, 19,
     "02 03 10 02 03 04 05 06 07 08 09 0A 0B 0C 0D 0E 0F 10 11"},
    /* The order of the tests: 1, 9. */
    {RANGES(2, 3, 20, 4, 1), 100, 1, 0, ""},
    {RANGES(2, 3, 20, 4, 1), 0, 1, 0, ""},
    {ONE_RANGE(2, 2, 3, 4), 100, 1, 0, ""},
};

static void check_layouts(void)
{
    for (size_t i = 0; i < sizeof layouts / sizeof layouts[0]; i++) {
        struct lent out = lend_room(layouts[i].room);
        calling("export of layout %s into %zu", told(layouts[i].shape), out.count);
        struct gorvlime_stored e = CALL(export_layout)(layouts[i].shape, LENT(out));
        same("refusal", e.refusal, layouts[i].refusal);
        same("length", e.length, layouts[i].length);
        holds(&out, layouts[i].out);
    }
}

static const struct {
    uint64_t serial, layout;
    struct gorvlime_shape shape;
    const char *cells;
    size_t room;
    uint64_t refusal, length;
    const char *out;
} records[] = {
    {7, 0, FALLING, "0A", 4, 0, 4, "07 00 01 0A"},
    {7, 0, FALLING, "0A", 3, 9, 0, ""},
    /* Cells that have no reading, blank ones among them. */
    {8, 63, FALLING, "00", 4, 0, 4, "08 3F 01 00"},
    {8, 63, FALLING, "FF", 4, 0, 4, "08 3F 01 FF"},
    /* The order of the tests: 10, 1, 3, 9. */
    {GORVLIME_SERIAL_MOST + 1, 64, RANGES(2, 3, 20, 4, 1), "", 0, 10, 0, ""},
    {7, 64, FALLING, "0A", 100, 1, 0, ""},
    {7, 0, RANGES(2, 3, 20, 4, 1), "", 0, 1, 0, ""},
    {7, 0, ONE_RANGE(2, 2, 3, 20), "0A", 100, 1, 0, ""},
    {7, 0, FALLING, "", 0, 3, 0, ""},
    {7, 0, FALLING, "0A 00", 0, 3, 0, ""},
    {7, 0, RANGES(2, 2, 20, 20), "00 01", 100, 3, 0, ""},
};

static void check_records(void)
{
    for (size_t i = 0; i < sizeof records / sizeof records[0]; i++) {
        struct lent cells = lend(records[i].cells), out = lend_room(records[i].room);
        calling("export of record %" PRIu64 " layout %" PRIu64 " %s cells %s into %zu", records[i].serial,
                records[i].layout, told(records[i].shape), records[i].cells, out.count);
        struct gorvlime_stored e = CALL(export_record)(records[i].serial, records[i].layout, records[i].shape,
                                                       LENT(cells), LENT(out));
        same("refusal", e.refusal, records[i].refusal);
        same("length", e.length, records[i].length);
        holds(&cells, records[i].cells);
        holds(&out, records[i].out);
    }
}

static void same_listed(struct gorvlime_listed got, struct gorvlime_listed expected)
{
    same("refusal", got.refusal, expected.refusal);
    same("form", got.shape.form, expected.shape.form);
    same("m", got.shape.m, expected.shape.m);
    same("t", got.shape.t, expected.shape.t);
    same("count", got.shape.count, expected.shape.count);
    for (unsigned i = 0; i < GORVLIME_RANGES_MOST; i++)
        same("a range", got.shape.v[i], expected.shape.v[i]);
}

/* Lists that are whole: how many layouts, where they end, and the layouts, at most three. */
static const struct {
    const char *dump;
    uint64_t layouts, first;
    struct gorvlime_shape shapes[3];
} lists[] = {
    {"01 " LISTED, 1, 7, {FALLING}},
    {"01 " LISTED " 07 00 01 0A 08 00 01 00", 1, 7, {FALLING}},
    {"00", 0, 1, {{0}}},
    {"00 07", 0, 1, {{0}}},
    {"03 00 02 03 04 " LISTED " 01 02 02 14", 3, 15, {ONE_RANGE(0, 2, 3, 4), FALLING, ONE_RANGE(1, 2, 2, 20)}},
    {"02 02 04 02 7F 80 01 " LISTED, 2, 13, {RANGES(4, 2, 127, 128), FALLING}},
    {"01 02 03 10 02 03 04 05 06 07 08 09 0A 0B 0C 0D 0E 0F 10 11", 1, 20,
     {RANGES(3, 16, 2, 3, 4, 5, 6, 7, 8, 9, 10, 11, 12, 13, 14, 15, 16, 17)}},
    /* Out of bounds is not broken, but for t in form 2. */
    {"01 02 05 03 14 04 02", 1, 7, {RANGES(5, 3, 20, 4, 2)}},
    {"01 02 00 03 00 01 FF FF FF FF FF FF FF FF 7F", 1, 15, {RANGES(0, 3, 0, 1, GORVLIME_SERIAL_MOST)}},
    {"01 00 02 01 14", 1, 5, {ONE_RANGE(0, 2, 1, 20)}},
    {"01 01 02 00 14", 1, 5, {ONE_RANGE(1, 2, 0, 20)}},
    {"01 00 02 11 14", 1, 5, {ONE_RANGE(0, 2, 17, 20)}},
    /* A form that is none has one range, also where only its low bits say 2. */
    {"01 03 02 03 14", 1, 5, {ONE_RANGE(3, 2, 3, 20)}},
    {"01 03 02 00 14", 1, 5, {ONE_RANGE(3, 2, 0, 20)}},
    {"01 82 02 02 03 14", 1, 6, {ONE_RANGE(258, 2, 3, 20)}},
    {"01 82 80 80 80 10 02 03 14", 1, 9, {ONE_RANGE(((uint64_t)1 << 32) + 2, 2, 3, 20)}},
};

static void check_lists(void)
{
    for (size_t i = 0; i < sizeof lists / sizeof lists[0]; i++) {
        struct lent dump = lend(lists[i].dump);
        uint64_t layouts = lists[i].layouts;
        const uint64_t not_listed[] = {layouts, layouts + 1, 63, 64, layouts + 256, ((uint64_t)1 << 32), UINT64_MAX};
        struct gorvlime_opened opened = CALL(open_new)(LENT(dump));
        calling("list of %s", lists[i].dump);
        same("refusal of the list", opened.refusal + opened.offset, 0);
        same("layouts", opened.layouts, layouts);
        same("first", opened.first, lists[i].first);
        for (uint64_t j = 0; j < layouts; j++)
            same_listed(CALL(listed_shape)(LENT(dump), j), (struct gorvlime_listed){.shape = lists[i].shapes[j]});
        for (size_t j = 0; j < sizeof not_listed / sizeof not_listed[0]; j++)
            same_listed(CALL(listed_shape)(LENT(dump), not_listed[j]), (struct gorvlime_listed){.refusal = 1});
        holds(&dump, lists[i].dump);
    }
}

static const char *const broken_lists[] = {
    "",
    "80",
    "41",
    "01",
    /* t outside 2 to 16 in form 2, with as many ranges as it says, with one, and with more. */
    "01 02 02 00",
    "01 02 02 00 14 04 02",
    "01 02 02 01 14",
    "01 02 02 01 14 07 00 01 0A",
    "01 02 02 11 02 02 02 02 02 02 02 02 02 02 02 02 02 02 02 02 02",
    "01 02 02 40 14 04 02",
    "01 02 02 83 02 14 04 02",
    "01 02 02 83 80 80 80 10 14 04 02",
    "01 02 02 FF FF FF FF FF FF FF FF 7F 14 04 02",
    /* Also where it is not used. */
    "02 00 02 03 04 02 02 01 14 07 00 01 4F",
    "02 02 02 11 02 02 00 02 03 04 07 01 01 4F",
    /* Cut off between and in the ranges, not in shortest form, over nine bytes. */
    "01 02",
    "01 02 02",
    "01 02 02 03",
    "01 02 02 03 14",
    "01 02 02 03 14 04",
    "01 02 02 03 14 04 82",
    "01 02 02 03 14 84 00 02",
    "01 02 02 03 14 04 82 00",
    "01 02 02 83 00 14 04 02",
    "01 02 02 03 14 FF FF FF FF FF FF FF FF FF 01 02",
    "02 " LISTED,
};

/* Refused with 7 at 0 by every call, at any offset, for any number and with any room; a move is not refused with 12. */
static void check_broken_lists(void)
{
    for (size_t i = 0; i < sizeof broken_lists / sizeof broken_lists[0]; i++) {
        struct lent dump = lend(broken_lists[i]), out = lend_room(MOST_LENT);
        uint64_t rows[GORVLIME_ROW_NEW] = {NO_ROW};
        struct gorvlime_found_new step = CALL(step_new)(LENT(dump), dump.count / 2), no_step = {.refusal = 7};
        struct gorvlime_opened opened = CALL(open_new)(LENT(dump)), not_opened = {.refusal = 7};
        struct gorvlime_moved moved = CALL(move_to_old)(LENT(dump), LENT(out)), not_moved = {.refusal = 7};
        calling("broken list of %s", broken_lists[i]);
        for (uint64_t j = 0; j < 3; j++)
            same_listed(CALL(listed_shape)(LENT(dump), j), (struct gorvlime_listed){.refusal = 7});
        same_listed(CALL(listed_shape)(LENT(dump), UINT64_MAX), (struct gorvlime_listed){.refusal = 7});
        same("list refused with 7 alone", memcmp(&opened, &not_opened, sizeof opened), 0);
        same("step refused with 7 alone", memcmp(&step, &no_step, sizeof step), 0);
        same("move refused with 7 alone", memcmp(&moved, &not_moved, sizeof moved), 0);
        same_walk(CALL(walk_new)(LENT(dump), 0, rows, GORVLIME_ROW_NEW), (struct gorvlime_walked){.refusal = 7});
        same("a number of the rows", rows[0], NO_ROW);
        holds(&dump, broken_lists[i]);
        holds(&out, "");
    }
}

#define DUMP "01 " LISTED " 07 00 01 0A 08 00 01 00 09 00 01 8F 0A 00 01 0F 0B 00 01 FF 0C 00 02 00 00"

/* Rows and steps have the first range. */
static void check_walk(void)
{
    static const uint64_t expected[][GORVLIME_ROW_NEW] = {
        {7, 0, 2, 2, 3, 20, 10, 1, 0, 1, 16, 2, 0},
        {8, 0, 2, 2, 3, 20, 14, 1, 11, 0, 0, 0, 0},
        {9, 0, 2, 2, 3, 20, 18, 1, 0, 2, 3, 1, 0},
        {10, 0, 2, 2, 3, 20, 22, 1, 16, 1, 0, 0, 0},
        {11, 0, 2, 2, 3, 20, 26, 1, 15, 3, 0, 0, 0},
        {12, 0, 2, 2, 3, 20, 30, 2, 3, 0, 0, 0, 0},
    };
    enum { RECORDS = sizeof expected / sizeof expected[0], NUMBERS = (RECORDS + 1) * GORVLIME_ROW_NEW };
    struct lent dump = lend(DUMP);
    uint64_t rows[NUMBERS];
    size_t at = 7;
    calling("walk of %s", DUMP);
    same_walk(CALL(walk_new)(LENT(dump), at, rows, NUMBERS), (struct gorvlime_walked){0, 0, RECORDS, 32, 1});
    for (unsigned i = 0; i < RECORDS; i++) {
        struct gorvlime_found_new s = CALL(step_new)(LENT(dump), at);
        const uint64_t *row = rows + i * GORVLIME_ROW_NEW;
        const uint64_t stepped[GORVLIME_ROW_NEW] = {
            s.serial, s.layout, s.form, s.m, s.t, s.v, s.start, s.length, s.refused, s.generation, s.number, s.left,
            s.unerased,
        };
        for (unsigned j = 0; j < GORVLIME_ROW_NEW; j++) {
            same("a number of the rows", row[j], expected[i][j]);
            same("a number of the steps", stepped[j], expected[i][j]);
        }
        same("refusal, offset and records of the step", s.refusal + s.offset + s.records, 1);
        at = s.next;
    }
}

/* Records of a layout out of bounds: its own 1, each. */
static void check_bounds(void)
{
    static const struct {
        const char *dump;
        uint64_t at, v;
    } dumps[] = {
        {"01 00 02 01 14 07 00 01 0A", 5, 20},
        {"01 02 05 03 14 04 02 07 00 01 0A", 7, 20},
        {"01 02 02 03 01 04 02 07 00 01 0A", 7, 1},
        {"01 02 02 03 14 04 01 07 00 01 0A", 7, 20},
        {"01 02 02 03 14 81 80 80 80 80 80 80 80 01 02 07 00 01 0A", 15, 20},
        {"01 03 02 03 14 07 00 01 0A", 5, 20},
    };
    for (size_t i = 0; i < sizeof dumps / sizeof dumps[0]; i++) {
        struct lent dump = lend(dumps[i].dump);
        struct gorvlime_found_new s = CALL(step_new)(LENT(dump), dumps[i].at);
        calling("step of %s", dumps[i].dump);
        same("records", s.records, 1);
        same("refused", s.refused, 1);
        same("v", s.v, dumps[i].v);
        same("number and all that", s.generation + s.number + s.left + s.unerased, 0);
    }
}

/* Used or not, form 2 does not go into an old dump; a malformed record is told before. */
static void check_moves_to_old(void)
{
    static const struct {
        const char *dump;
        struct gorvlime_moved moved;
    } moves[] = {
        {"01 " LISTED, {.refusal = 12}},
        {DUMP, {.refusal = 12}},
        {"02 00 02 03 04 " LISTED " 07 00 01 4F", {.refusal = 12}},
        {"02 " LISTED " 00 02 03 04 07 01 01 4F", {.refusal = 12}},
        {"01 02 05 03 00 00 00", {.refusal = 12}},
        {"01 " LISTED " 07 01 00", {.refusal = 7, .offset = 7}},
        {"01 " LISTED " 07 00 01", {.refusal = 7, .offset = 7}},
    };
    for (size_t i = 0; i < sizeof moves / sizeof moves[0]; i++) {
        for (size_t room = 0; room <= 100; room += 100) {
            struct lent dump = lend(moves[i].dump), out = lend_room(room);
            struct gorvlime_moved m = CALL(move_to_old)(LENT(dump), LENT(out));
            calling("move to old of %s into %zu", moves[i].dump, room);
            same("refusal", m.refusal, moves[i].moved.refusal);
            same("offset", m.offset, moves[i].moved.offset);
            same("length", m.length, 0);
            holds(&out, "");
        }
    }
}

/* As many layouts as a list holds, each of sixteen ranges of nine bytes, and a record of the last one. */
static void check_long_list(void)
{
    static uint8_t dump[GORVLIME_DUMP_MOST + 1];
    struct gorvlime_shape shape = {.form = 2, .m = 4, .t = GORVLIME_RANGES_MOST, .count = GORVLIME_RANGES_MOST};
    uint64_t rows[GORVLIME_ROW_NEW];
    size_t count = 1;
    dump[0] = GORVLIME_LAYOUTS_MOST;
    for (unsigned i = 0; i < GORVLIME_LAYOUTS_MOST; i++) {
        for (unsigned j = 0; j < GORVLIME_RANGES_MOST; j++)
            shape.v[j] = RANGE - i * j;
        count += CALL(export_layout)(shape, dump + count, GORVLIME_DUMP_MOST - count).length;
    }
    calling("list of 64 layouts of form 2");
    same("first", CALL(open_new)(dump, count).first, count);
    same_listed(CALL(listed_shape)(dump, count, GORVLIME_LAYOUTS_MOST - 1), (struct gorvlime_listed){.shape = shape});
    same_listed(CALL(listed_shape)(dump, count, GORVLIME_LAYOUTS_MOST), (struct gorvlime_listed){.refusal = 1});
    same_listed(CALL(listed_shape)(dump, count - 1, 0), (struct gorvlime_listed){.refusal = 7});
    memcpy(dump + count, (uint8_t[]){9, GORVLIME_LAYOUTS_MOST - 1, 64}, 3);
    dump[count + 3] = 1;
    same_walk(CALL(walk_new)(dump, count + 67, count, rows, GORVLIME_ROW_NEW),
              (struct gorvlime_walked){.rows = 1, .next = count + 67});
    same("refused", rows[8], 0);
    same("v", rows[5], RANGE);
    same_listed(CALL(listed_shape)(dump, GORVLIME_DUMP_MOST, GORVLIME_LAYOUTS_MOST - 1),
                (struct gorvlime_listed){.shape = shape});
    same_listed(CALL(listed_shape)(dump, GORVLIME_DUMP_MOST + 1, 0), (struct gorvlime_listed){.refusal = 8});
    same_listed(CALL(listed_shape)(dump, GORVLIME_DUMP_MOST + 1, GORVLIME_LAYOUTS_MOST),
                (struct gorvlime_listed){.refusal = 8});
    dump[0] = GORVLIME_LAYOUTS_MOST + 1;
    same_listed(CALL(listed_shape)(dump, GORVLIME_DUMP_MOST, 0), (struct gorvlime_listed){.refusal = 7});
    same_listed(CALL(listed_shape)(dump, GORVLIME_DUMP_MOST + 1, 0), (struct gorvlime_listed){.refusal = 8});
}

void check_listed_ranges(void)
{
    check_layouts();
    check_records();
    check_lists();
    check_broken_lists();
    check_walk();
    check_bounds();
    check_moves_to_old();
    check_long_list();
}
