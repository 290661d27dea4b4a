/* Dumps moved to new and to old, new dumps of many layouts, and new dumps of full size. */
#include "chosen.h"
#include "check.h"
#include "walks.h"

#include <inttypes.h>
#include <stdlib.h>
#include <string.h>

#define OLD_DUMP "07 02 03 04 01 4F  AC 02 02 02 14 02 00 40  08 02 03 04 01 00  09 02 02 14 02 02 80"
#define NEW_DUMP \
    "02 00 02 03 04 00 02 02 14  07 00 01 4F  AC 02 01 02 00 40  08 00 01 00  09 01 02 02 80"

/* `out` is the moved dump; the lent output has `room` bytes, and those behind it stay. */
struct move {
    const char *dump;
    size_t room;
    uint64_t refusal, offset, length;
    const char *out;
};

static const struct move moves_to_new[] = {
    {OLD_DUMP, 100, 0, 0, 28, NEW_DUMP},
    {OLD_DUMP, 28, 0, 0, 28, NEW_DUMP},
    {OLD_DUMP, 27, 9, 0, 0, ""},
    {OLD_DUMP, 0, 9, 0, 0, ""},
    {"", 1, 0, 0, 1, "00"},
    {"", 9, 0, 0, 1, "00"},
    {"", 0, 9, 0, 0, ""},
    /* In the order of first use; the same layout is listed once. */
    {"01 02 02 14 00 02 02 03 04 00 03 02 02 14 00", 18, 0, 0, 18,
     "02 00 02 02 14 00 02 03 04 01 00 00 02 01 00 03 00 00"},
    /* They differ in m alone, in t alone, in v alone. */
    {"01 02 02 04 00 01 03 02 04 00 01 02 03 04 00 01 02 02 05 00", 29, 0, 0, 29,
     "04 00 02 02 04 00 03 02 04 00 02 03 04 00 02 02 05 01 00 00 01 01 00 01 02 00 01 03 00"},
    /* Readings and bounds are not looked at. */
    {"00 00 00 00 00", 8, 0, 0, 8, "01 00 00 00 00 00 00 00"},
    {"01 7F 80 01 FF FF FF FF FF FF FF FF 7F 02 FF FF", 19, 0, 0, 19,
     "01 00 7F 80 01 FF FF FF FF FF FF FF FF 7F 01 00 02 FF FF"},
    {"07 02 03 04 01", 50, 7, 0, 0, ""},
    {"07 02 03 04 01 4F 80 00", 50, 7, 6, 0, ""},
    {"07 02 03 04 01 4F 80 00", 0, 7, 6, 0, ""},
    {"07 02 03 04 01 4F 07 02 03 04 02 4F", 50, 7, 6, 0, ""},
};

static const struct move moves_to_old[] = {
    {NEW_DUMP, 100, 0, 0, 27, OLD_DUMP},
    {NEW_DUMP, 27, 0, 0, 27, OLD_DUMP},
    {NEW_DUMP, 26, 9, 0, 0, ""},
    {NEW_DUMP, 0, 9, 0, 0, ""},
    {"00", 0, 0, 0, 0, ""},
    {"00", 5, 0, 0, 0, ""},
    /* Layouts that are not used, and equal ones. */
    {"02 00 02 03 04 00 02 02 14", 0, 0, 0, 0, ""},
    {"02 00 02 03 04 00 02 03 04 07 01 01 4F", 100, 0, 0, 6, "07 02 03 04 01 4F"},
    {"01 00 00 00 00 00 00 00", 5, 0, 0, 5, "00 00 00 00 00"},
    /* A form that the old dump cannot hold, used or not; 7 comes before it. */
    {"02 00 02 03 04 01 02 03 04 07 00 01 4F", 100, 12, 0, 0, ""},
    {"02 01 02 03 04 00 02 03 04 07 00 01 4F", 100, 12, 0, 0, ""},
    {"01 01 02 03 04", 0, 12, 0, 0, ""},
    {"01 03 02 03 04", 0, 12, 0, 0, ""},
    {"01 80 02 02 03 04", 100, 12, 0, 0, ""},
    {"01 80 80 80 80 10 02 03 04", 100, 12, 0, 0, ""},
    {"01 01 02 03 04 07", 100, 7, 5, 0, ""},
    {"01 01 02 03 04 07 01 00", 100, 7, 5, 0, ""},
    /* Broken lists, and records that are malformed. */
    {"", 100, 7, 0, 0, ""},
    {"80", 100, 7, 0, 0, ""},
    {"41", 100, 7, 0, 0, ""},
    {"01 00 02 03", 100, 7, 0, 0, ""},
    {"01 01 02 03", 0, 7, 0, 0, ""},
    {"01 00 02 03 04 07 00 01 4F 08 01 01 4F", 100, 7, 9, 0, ""},
    {"01 00 02 03 04 07 00 01 4F 08 00 02 4F", 0, 7, 9, 0, ""},
};

static void same_move(struct gorvlime_moved got, struct gorvlime_moved expected)
{
    same("refusal", got.refusal, expected.refusal);
    same("offset", got.offset, expected.offset);
    same("length", got.length, expected.length);
}

typedef struct gorvlime_moved mover(const uint8_t *, size_t, uint8_t *, size_t);

static void check_move(const struct move *m, const char *where, mover *call)
{
    struct lent dump = lend(m->dump), out = lend_room(m->room);
    calling("move to %s of %s into %zu", where, m->dump, m->room);
    same_move(call(LENT(dump), LENT(out)), (struct gorvlime_moved){m->refusal, m->offset, m->length});
    holds(&dump, m->dump);
    holds(&out, m->out);
}

static void check_small_moves(void)
{
    for (size_t i = 0; i < sizeof moves_to_new / sizeof moves_to_new[0]; i++)
        check_move(&moves_to_new[i], "new", CALL(move_to_new));
    for (size_t i = 0; i < sizeof moves_to_old / sizeof moves_to_old[0]; i++)
        check_move(&moves_to_old[i], "old", CALL(move_to_old));
}

/* Bytes that are all UNTOUCHED, to be filled and lent. */
static uint8_t *take(size_t count)
{
    uint8_t *bytes = malloc(count);
    if (bytes == NULL)
        abort();
    memset(bytes, UNTOUCHED, count);
    return bytes;
}

static size_t still_untouched(const uint8_t *bytes, size_t from, size_t count)
{
    size_t untouched = 0;
    while (from + untouched < count && bytes[from + untouched] == UNTOUCHED)
        untouched++;
    return untouched;
}

/* Records `01 02 02 v 00`, v from 2, each layout once. */
static size_t put_layouts(uint8_t *out, unsigned count)
{
    for (unsigned i = 0; i < count; i++)
        memcpy(out + 5 * i, (uint8_t[]){1, 2, 2, 2 + i, 0}, 5);
    return 5 * count;
}

/* From 1 layout to 64, there and back; more are refused, after 7. */
static void check_many_layouts(void)
{
    enum { ROOM = 1024, MOST = 80 };
    uint8_t *old = take(ROOM), *new = take(ROOM), *back = take(ROOM);
    for (unsigned count = 1; count <= GORVLIME_LAYOUTS_MOST; count++) {
        size_t length = put_layouts(old, count), moved = 1 + 7 * count;
        calling("move of %u layouts there and back", count);
        same_move(CALL(move_to_new)(old, length, new, moved), (struct gorvlime_moved){0, 0, moved});
        same("the count", new[0], count);
        same("the last record's layout", new[moved - 2], count - 1);
        same_move(CALL(move_to_old)(new, moved, back, length), (struct gorvlime_moved){0, 0, length});
        same("the same bytes", memcmp(old, back, length), 0);
    }
    memset(new, UNTOUCHED, ROOM);
    for (unsigned count = GORVLIME_LAYOUTS_MOST + 1; count <= MOST; count++) {
        size_t length = put_layouts(old, count);
        calling("move of %u layouts", count);
        same_move(CALL(move_to_new)(old, length, new, ROOM), (struct gorvlime_moved){.refusal = 13});
        same_move(CALL(move_to_new)(old, length, new, 0), (struct gorvlime_moved){.refusal = 13});
        same_move(CALL(move_to_new)(old, length - 1, new, ROOM),
                  (struct gorvlime_moved){.refusal = 7, .offset = length - 5});
        same("bytes left as they are", still_untouched(new, 0, ROOM), ROOM);
    }
    free(old);
    free(new);
    free(back);
}

/* New dumps that list m 2, t 3, v 4 so many times and have a record of the last one. */
static void check_long_lists(void)
{
    enum { ROOM = 1024 };
    uint8_t *dump = take(ROOM);
    uint64_t rows[GORVLIME_ROW_NEW];
    for (unsigned count = 1; count <= GORVLIME_LAYOUTS_MOST + 2; count++) {
        size_t first = 1 + 4 * count;
        dump[0] = count;
        for (unsigned i = 0; i < count; i++)
            memcpy(dump + 1 + 4 * i, (uint8_t[]){0, 2, 3, 4}, 4);
        memcpy(dump + first, (uint8_t[]){9, count - 1, 1, 0x4f}, 4);
        int is_broken = count > GORVLIME_LAYOUTS_MOST;
        struct gorvlime_opened opened = CALL(open_new)(dump, first + 4);
        calling("list of %u layouts", count);
        same("refusal", opened.refusal, is_broken ? 7 : 0);
        same("layouts", opened.layouts, is_broken ? 0 : count);
        same("first", opened.first, is_broken ? 0 : first);
        struct gorvlime_walked w = CALL(walk_new)(dump, first + 4, first, rows, GORVLIME_ROW_NEW);
        if (is_broken) {
            same_walk(w, (struct gorvlime_walked){.refusal = 7});
        } else {
            same_walk(w, (struct gorvlime_walked){.rows = 1, .next = first + 4});
            same("layout", rows[1], count - 1);
            same("number", rows[10], 2);
        }
    }
    free(dump);
}

/* Records whose layouts take turns, some of them equal: each is read by its own, and each row is its step's. */
static void check_changing_layouts(void)
{
    static const struct gorvlime_shape shapes[] = {
        ONE_RANGE(0, 2, 2, 4), ONE_RANGE(1, 2, 2, 4), ONE_RANGE(0, 2, 2, 20), ONE_RANGE(0, 2, 3, 20), ONE_RANGE(0, 3, 3, 20),
        ONE_RANGE(0, 2, 2, 4), ONE_RANGE(1, 2, 2, 13), ONE_RANGE(0, 2, 2, 13), RANGES(2, 2, 4, 4), RANGES(2, 3, 20, 4, 2),
        RANGES(2, 3, 20, 2, 4), RANGES(2, 2, 20, 300),
    };
    static const uint64_t order[] = {0, 0, 1, 2, 1, 3, 4, 5, 0, 6, 7, 6, 1, 0, 8, 1, 8, 9, 10, 9, 9, 11, 2, 11};
    enum { LAYOUTS = sizeof shapes / sizeof shapes[0], RECORDS = sizeof order / sizeof order[0], ROOM = 256 };
    uint8_t *dump = take(ROOM);
    uint64_t rows[RECORDS * GORVLIME_ROW_NEW];
    size_t count = 1;
    dump[0] = LAYOUTS;
    for (unsigned i = 0; i < LAYOUTS; i++)
        count += CALL(export_layout)(shapes[i], dump + count, ROOM - count).length;
    size_t first = count;
    for (unsigned i = 0; i < RECORDS; i++) {
        struct gorvlime_shape shape = shapes[order[i]];
        uint8_t cells[8] = {0};
        size_t cells_count = (shape.m * CALL(layout)(shape, 256).h[0] + 7) / 8;
        CALL(write)(shape, cells, cells_count, 3);
        count += CALL(export_record)(i, order[i], shape, cells, cells_count, dump + count, ROOM - count).length;
    }
    calling("walk of a new dump whose layouts take turns");
    same_walk(CALL(walk_new)(dump, count, first, rows, RECORDS * GORVLIME_ROW_NEW),
              (struct gorvlime_walked){.rows = RECORDS, .next = count});
    for (size_t i = 0, at = first; i < RECORDS; i++) {
        struct gorvlime_found_new s = CALL(step_new)(dump, count, at);
        uint64_t expected[GORVLIME_ROW_NEW] = {
            i, order[i], s.form, s.m, s.t, s.v, s.start, s.length, 0, 1, 3, s.t - 1, 0,
        };
        const struct gorvlime_shape *shape = &shapes[order[i]];
        same("form", s.form, shape->form);
        same("m", s.m, shape->m);
        same("t", s.t, shape->t);
        same("v", s.v, shape->v[0]);
        for (unsigned j = 0; j < GORVLIME_ROW_NEW; j++)
            same("a number of the rows", rows[i * GORVLIME_ROW_NEW + j], expected[j]);
        at = s.next;
    }
    free(dump);
}

/* One record of the layout 2, 3, 4 whose zero cells make the old dump so long. */
static size_t put_long_record(uint8_t *old, size_t length)
{
    size_t cells = length - 7;
    memset(old, 0, length);
    memcpy(old, (uint8_t[]){5, 2, 3, 4, cells | 128, cells >> 7 | 128, cells >> 14}, 7);
    return length;
}

/* A moved dump of exactly 65,536 bytes, one that would be longer, and one that is too long to begin with. */
static void check_full_moves(void)
{
    enum { ROOM = GORVLIME_DUMP_MOST + 8 };
    uint8_t *old = take(ROOM), *new = take(ROOM), *back = take(ROOM);
    size_t length = put_long_record(old, GORVLIME_DUMP_MOST - 3);
    calling("move to new of 65,533 bytes");
    same_move(CALL(move_to_new)(old, length, new, GORVLIME_DUMP_MOST - 1), (struct gorvlime_moved){.refusal = 9});
    same("bytes left as they are", still_untouched(new, 0, ROOM), ROOM);
    same_move(CALL(move_to_new)(old, length, new, ROOM), (struct gorvlime_moved){.length = GORVLIME_DUMP_MOST});
    same("bytes behind it", still_untouched(new, GORVLIME_DUMP_MOST, ROOM), 8);
    same("the list and the record", memcmp(new, (uint8_t[]){1, 0, 2, 3, 4, 5, 0, 0xf6, 0xff, 3, 0}, 11), 0);
    same_move(CALL(move_to_old)(new, GORVLIME_DUMP_MOST, back, ROOM), (struct gorvlime_moved){.length = length});
    same("the same bytes", memcmp(old, back, length), 0);
    same("bytes behind them", still_untouched(back, length, ROOM), ROOM - length);
    memset(new, UNTOUCHED, ROOM);
    for (unsigned more = 1; more <= 4; more++) {
        length = put_long_record(old, GORVLIME_DUMP_MOST - 3 + more);
        calling("move to new of %zu bytes", length);
        same_move(CALL(move_to_new)(old, length, new, 0), (struct gorvlime_moved){.refusal = 8});
        same_move(CALL(move_to_new)(old, length, new, ROOM), (struct gorvlime_moved){.refusal = 8});
        same("bytes left as they are", still_untouched(new, 0, ROOM), ROOM);
    }
    free(old);
    free(new);
    free(back);
}

/*
 * Records of three bytes become five in the old dump: 21,843 of them and a list fill a new dump but for two bytes, and
 * 13,107 are the most that an old dump holds.
 */
static void check_moves_that_grow(void)
{
    uint8_t *new = take(GORVLIME_DUMP_MOST + 1), *old = take(GORVLIME_DUMP_MOST);
    memset(new, 0, GORVLIME_DUMP_MOST + 1);
    memcpy(new, (uint8_t[]){1, 0, 2, 3, 4}, 5);
    calling("move to old of three-byte records");
    same_move(CALL(move_to_old)(new, 5 + 3 * 13107, old, GORVLIME_DUMP_MOST), (struct gorvlime_moved){.length = 5 * 13107});
    same("the last record", memcmp(old + 5 * 13106, (uint8_t[]){0, 2, 3, 4, 0}, 5), 0);
    same("bytes behind it", still_untouched(old, 5 * 13107, GORVLIME_DUMP_MOST), 1);
    memset(old, UNTOUCHED, GORVLIME_DUMP_MOST);
    same_move(CALL(move_to_old)(new, 5 + 3 * 13108, old, 0), (struct gorvlime_moved){.refusal = 8});
    same_move(CALL(move_to_old)(new, 5 + 3 * 21843, old, GORVLIME_DUMP_MOST), (struct gorvlime_moved){.refusal = 8});
    same_move(CALL(move_to_old)(new, GORVLIME_DUMP_MOST, old, GORVLIME_DUMP_MOST),
              (struct gorvlime_moved){.refusal = 7, .offset = 5 + 3 * 21843});
    same_move(CALL(move_to_old)(new, GORVLIME_DUMP_MOST + 1, old, GORVLIME_DUMP_MOST),
              (struct gorvlime_moved){.refusal = 8});
    same("bytes left as they are", still_untouched(old, 0, GORVLIME_DUMP_MOST), GORVLIME_DUMP_MOST);
    free(new);
    free(old);
}

/* The same records walked: each is refused with 3, and two bytes are left over. */
static void check_full_walk(void)
{
    enum { RECORDS = 21843, LEFT = 5 + 3 * RECORDS };
    size_t rows_count = (RECORDS + 1) * GORVLIME_ROW_NEW;
    uint8_t *dump = calloc(GORVLIME_DUMP_MOST + 1, 1);
    uint64_t *rows = calloc(rows_count, sizeof *rows);
    if (dump == NULL || rows == NULL)
        abort();
    memcpy(dump, (uint8_t[]){1, 0, 2, 3, 4}, 5);
    calling("walk of a new dump of 65,536 bytes");
    same_walk(CALL(walk_new)(dump, GORVLIME_DUMP_MOST, 5, rows, rows_count),
              (struct gorvlime_walked){7, LEFT, RECORDS, LEFT, 0});
    for (size_t i = 0; i < RECORDS; i++) {
        same("start", rows[i * GORVLIME_ROW_NEW + 6], 5 + 3 * i + 3);
        same("refused", rows[i * GORVLIME_ROW_NEW + 8], 3);
    }
    calling("a new dump of 65,537 bytes");
    same("refusal of its list", CALL(open_new)(dump, GORVLIME_DUMP_MOST + 1).refusal, 8);
    same("refusal of a step", CALL(step_new)(dump, GORVLIME_DUMP_MOST + 1, 5).refusal, 8);
    same_walk(CALL(walk_new)(dump, GORVLIME_DUMP_MOST + 1, 5, rows, rows_count), (struct gorvlime_walked){.refusal = 8});
    same_walk(CALL(walk_new)(dump, GORVLIME_DUMP_MOST + 1, SIZE_MAX, rows, 0), (struct gorvlime_walked){.refusal = 8});
    dump[0] = 0x80;
    same_walk(CALL(walk_new)(dump, GORVLIME_DUMP_MOST + 1, 0, rows, rows_count), (struct gorvlime_walked){.refusal = 8});
    free(dump);
    free(rows);
}

void check_moves(void)
{
    check_small_moves();
    check_many_layouts();
    check_long_lists();
    check_changing_layouts();
    check_full_moves();
    check_moves_that_grow();
    check_full_walk();
}
