/* The dump calls: export, one step, and a walk. */
#include "chosen.h"
#include "check.h"
#include "walks.h"

#include <inttypes.h>
#include <stdlib.h>
#include <string.h>

/* `out` is the record; the lent output has `room` bytes, and those behind the record stay. */
static const struct {
    uint64_t serial, m, t, v;
    const char *cells;
    size_t room;
    uint64_t refusal, length;
    const char *out;
} exports[] = {
    {7, 2, 3, 4, "4F", 6, 0, 6, "07 02 03 04 01 4F"},
    {7, 2, 3, 4, "4F", 7, 0, 6, "07 02 03 04 01 4F"},
    {7, 2, 3, 4, "4F", 100, 0, 6, "07 02 03 04 01 4F"},
    {7, 2, 3, 4, "4F", 5, 9, 0, ""},
    {7, 2, 3, 4, "4F", 0, 9, 0, ""},
    {300, 2, 2, 20, "00 40", 8, 0, 8, "AC 02 02 02 14 02 00 40"},
    {300, 2, 2, 20, "00 40", 7, 9, 0, ""},
    {8, 2, 3, 4, "00", 6, 0, 6, "08 02 03 04 01 00"},
    /* Cells that have no reading are exported too. */
    {9, 2, 2, 20, "02 80", 7, 0, 7, "09 02 02 14 02 02 80"},
    {0, 2, 3, 4, "FF", 6, 0, 6, "00 02 03 04 01 FF"},
    {127, 2, 3, 4, "00", 6, 0, 6, "7F 02 03 04 01 00"},
    {128, 2, 3, 4, "00", 7, 0, 7, "80 01 02 03 04 01 00"},
    {GORVLIME_SERIAL_MOST, 2, 3, 4, "00", 14, 0, 14, "FF FF FF FF FF FF FF FF 7F 02 03 04 01 00"},
    {GORVLIME_SERIAL_MOST + 1, 2, 3, 4, "00", 100, 10, 0, ""},
    {UINT64_MAX, 2, 3, 4, "00", 100, 10, 0, ""},
    {1, 2, 2, RANGE, "00 00 00 00 00 00 00 00 00 00 00 00 00", 26, 0, 26,
     "01 02 02 80 80 80 80 80 80 80 80 01 0D 00 00 00 00 00 00 00 00 00 00 00 00 00"},
    /* The order of the tests: 10, 1, 3, 9. */
    {GORVLIME_SERIAL_MOST + 1, 5, 3, 4, "", 0, 10, 0, ""},
    {1, 5, 3, 4, "", 0, 1, 0, ""},
    {1, 2, 3, 4, "", 0, 3, 0, ""},
    {1, 2, 3, 4, "00 00", 0, 3, 0, ""},
    {1, 2, 2, 20, "00 41", 100, 3, 0, ""},
    {1, 2, 17, 4, "00", 100, 1, 0, ""},
    {1, 2, 3, RANGE + 1, "00", 100, 1, 0, ""},
    {1, 2, 3, 1, "00", 100, 1, 0, ""},
};

static void check_exports(void)
{
    for (size_t i = 0; i < sizeof exports / sizeof exports[0]; i++) {
        struct lent cells = lend(exports[i].cells), out = lend_room(exports[i].room);
        uint64_t serial = exports[i].serial, m = exports[i].m, t = exports[i].t, v = exports[i].v;
        calling("export %" PRIu64 " m %" PRIu64 " t %" PRIu64 " v %" PRIu64 " cells %s into %zu", serial, m, t, v,
                exports[i].cells, out.count);
        struct gorvlime_stored e = CALL(export)(serial, m, t, v, LENT(cells), LENT(out));
        same("refusal", e.refusal, exports[i].refusal);
        same("length", e.length, exports[i].length);
        holds(&cells, exports[i].cells);
        holds(&out, exports[i].out);
    }
}

static void same_step(struct gorvlime_found got, struct gorvlime_found expected)
{
    same("refusal", got.refusal, expected.refusal);
    same("offset", got.offset, expected.offset);
    same("records", got.records, expected.records);
    same("serial", got.serial, expected.serial);
    same("m", got.m, expected.m);
    same("t", got.t, expected.t);
    same("v", got.v, expected.v);
    same("start", got.start, expected.start);
    same("length", got.length, expected.length);
    same("next", got.next, expected.next);
    same("refused", got.refused, expected.refused);
    same("generation", got.generation, expected.generation);
    same("number", got.number, expected.number);
    same("left", got.left, expected.left);
    same("unerased", got.unerased, expected.unerased);
}

/* The fields are named here, so that two which change places in the header are told apart. */
#define RECORD(SERIAL, M, T, V, START, LENGTH, NEXT, REFUSED, GENERATION, NUMBER, LEFT, UNERASED) \
    {.records = 1, .serial = (SERIAL), .m = (M), .t = (T), .v = (V), .start = (START), .length = (LENGTH), .next = (NEXT), \
     .refused = (REFUSED), .generation = (GENERATION), .number = (NUMBER), .left = (LEFT), .unerased = (UNERASED)}
#define END {0}
#define STOP(where) {.refusal = 7, .offset = (where)}
#define DOCUMENT_DUMP "07 02 03 04 01 4F  AC 02 02 02 14 02 00 40  08 02 03 04 01 00  09 02 02 14 02 02 80"
#define UNREADABLE_DUMP "01 02 03 04 01 0F  02 02 03 04 01 43"

static const struct {
    const char *dump;
    size_t at;
    struct gorvlime_found found;
} steps[] = {
    {DOCUMENT_DUMP, 0, RECORD(7, 2, 3, 4, 5, 1, 6, 0, 3, 2, 0, 0)},
    {DOCUMENT_DUMP, 6, RECORD(300, 2, 2, 20, 12, 2, 14, 0, 1, 1, 1, 0)},
    {DOCUMENT_DUMP, 14, RECORD(8, 2, 3, 4, 19, 1, 20, 0, 1, 0, 3, 0)},
    {DOCUMENT_DUMP, 20, RECORD(9, 2, 2, 20, 25, 2, 27, 16, 1, 0, 0, 0)},
    {DOCUMENT_DUMP, 27, END},
    {DOCUMENT_DUMP, 28, END},
    {DOCUMENT_DUMP, SIZE_MAX, END},
    {"", 0, END},
    {"", 1, END},
    /* A record's own refusals. */
    {"00 00 00 00 00", 0, RECORD(0, 0, 0, 0, 5, 0, 5, 1, 0, 0, 0, 0)},
    {"01 05 03 04 01 00", 0, RECORD(1, 5, 3, 4, 5, 1, 6, 1, 0, 0, 0, 0)},
    {"01 02 11 04 01 00", 0, RECORD(1, 2, 17, 4, 5, 1, 6, 1, 0, 0, 0, 0)},
    {"01 02 03 04 00", 0, RECORD(1, 2, 3, 4, 5, 0, 5, 3, 0, 0, 0, 0)},
    {"01 02 03 04 02 00 00", 0, RECORD(1, 2, 3, 4, 5, 2, 7, 3, 0, 0, 0, 0)},
    {"01 02 02 14 02 00 41", 0, RECORD(1, 2, 2, 20, 5, 2, 7, 3, 0, 0, 0, 0)},
    {UNREADABLE_DUMP, 0, RECORD(1, 2, 3, 4, 5, 1, 6, 15, 2, 0, 0, 2)},
    {UNREADABLE_DUMP, 6, RECORD(2, 2, 3, 4, 11, 1, 12, 16, 2, 0, 0, 0)},
    {"01 02 03 04 01 FF", 0, RECORD(1, 2, 3, 4, 5, 1, 6, 15, 3, 0, 0, 0)},
    {"01 02 02 81 80 80 80 80 80 80 80 01 00", 0, RECORD(1, 2, 2, RANGE + 1, 13, 0, 13, 1, 0, 0, 0, 0)},
    /* Nine bytes are the longest number. */
    {"FF FF FF FF FF FF FF FF 7F 02 03 04 01 4F", 0, RECORD(GORVLIME_SERIAL_MOST, 2, 3, 4, 13, 1, 14, 0, 3, 2, 0, 0)},
    {"FF FF FF FF FF FF FF FF FF 01 02 03 04 01 4F", 0, STOP(0)},
    {"FF FF FF FF FF FF FF FF FF 7F 02 03 04 01 4F", 0, STOP(0)},
    {"80 80 80 80 80 80 80 80 01 02 03 04 01 4F", 0, RECORD(RANGE, 2, 3, 4, 13, 1, 14, 0, 3, 2, 0, 0)},
    /* Not in shortest form. */
    {"80 00", 0, STOP(0)},
    {"80 00 02 03 04 01 4F", 0, STOP(0)},
    {"07 82 00 03 04 01 4F", 0, STOP(0)},
    {"07 02 03 04 81 00 4F", 0, STOP(0)},
    {"80 80 00 02 03 04 01 4F", 0, STOP(0)},
    /* Cut off in a number, between numbers, in the cells. */
    {"07", 0, STOP(0)},
    {"87", 0, STOP(0)},
    {"07 02", 0, STOP(0)},
    {"07 02 03 04", 0, STOP(0)},
    {"07 02 03 04 81", 0, STOP(0)},
    {"07 02 03 04 01", 0, STOP(0)},
    {"07 02 03 04 02 4F", 0, STOP(0)},
    {"07 02 03 04 01 4F 07", 6, STOP(6)},
    {"07 02 03 04 01 4F 80 00", 6, STOP(6)},
    {"07 02 03 04 FF FF FF FF FF FF FF FF 7F 4F", 0, STOP(0)},
};

static void check_steps(void)
{
    for (size_t i = 0; i < sizeof steps / sizeof steps[0]; i++) {
        struct lent dump = lend(steps[i].dump);
        calling("step at %zu of %s", steps[i].at, steps[i].dump);
        same_step(CALL(step)(LENT(dump), steps[i].at), steps[i].found);
        holds(&dump, steps[i].dump);
    }
}

void same_walk(struct gorvlime_walked got, struct gorvlime_walked expected)
{
    same("refusal", got.refusal, expected.refusal);
    same("offset", got.offset, expected.offset);
    same("rows", got.rows, expected.rows);
    same("next", got.next, expected.next);
    same("ended", got.ended, expected.ended);
}

static const uint64_t document_rows[4][GORVLIME_ROW] = {
    {7, 2, 3, 4, 5, 1, 0, 3, 2, 0, 0},
    {300, 2, 2, 20, 12, 2, 0, 1, 1, 1, 0},
    {8, 2, 3, 4, 19, 1, 0, 1, 0, 3, 0},
    {9, 2, 2, 20, 25, 2, 16, 1, 0, 0, 0},
};

/* A walk of part of the document's dump, its rows beginning with the document's row `first`. */
static void check_walk(size_t dump_count, size_t at, size_t rows_count, unsigned first, struct gorvlime_walked expected)
{
    struct lent dump = lend(DOCUMENT_DUMP);
    uint64_t rows[6 * GORVLIME_ROW];
    for (size_t i = 0; i < 6 * GORVLIME_ROW; i++)
        rows[i] = NO_ROW;
    calling("walk from %zu of the first %zu bytes, room for %zu numbers", at, dump_count, rows_count);
    same_walk(CALL(walk)(dump.all + MARGIN, dump_count, at, rows, rows_count), expected);
    for (size_t i = 0; i < 6 * GORVLIME_ROW; i++) {
        int filled = i < expected.rows * GORVLIME_ROW;
        same("a number of the rows", rows[i], filled ? document_rows[first + i / GORVLIME_ROW][i % GORVLIME_ROW] : NO_ROW);
    }
    holds(&dump, DOCUMENT_DUMP);
}

static void check_walks(void)
{
    check_walk(27, 0, 66, 0, (struct gorvlime_walked){0, 0, 4, 27, 1});
    check_walk(27, 0, 55, 0, (struct gorvlime_walked){0, 0, 4, 27, 1});
    /* The rows are used up: a step for the end is not taken. */
    check_walk(27, 0, 54, 0, (struct gorvlime_walked){0, 0, 4, 27, 0});
    check_walk(27, 0, 44, 0, (struct gorvlime_walked){0, 0, 4, 27, 0});
    check_walk(27, 0, 43, 0, (struct gorvlime_walked){0, 0, 3, 20, 0});
    check_walk(27, 0, 11, 0, (struct gorvlime_walked){0, 0, 1, 6, 0});
    check_walk(27, 6, 21, 1, (struct gorvlime_walked){0, 0, 1, 14, 0});
    check_walk(27, 14, 66, 2, (struct gorvlime_walked){0, 0, 2, 27, 1});
    check_walk(27, 27, 11, 0, (struct gorvlime_walked){0, 0, 0, 27, 1});
    check_walk(27, 28, 11, 0, (struct gorvlime_walked){0, 0, 0, 28, 1});
    check_walk(27, 6, 10, 0, (struct gorvlime_walked){0, 0, 0, 6, 0});
    check_walk(27, 0, 0, 0, (struct gorvlime_walked){0, 0, 0, 0, 0});
    check_walk(0, 0, 11, 0, (struct gorvlime_walked){0, 0, 0, 0, 1});
    check_walk(13, 6, 11, 0, (struct gorvlime_walked){7, 6, 0, 6, 0});
    /* Cut off at every byte: the whole records, and the end or refusal 7 where the next one starts. */
    static const size_t ends[] = {0, 6, 14, 20, 27};
    for (size_t count = 0, whole = 0; count <= 27; count++) {
        whole += whole < 4 && count == ends[whole + 1];
        int cut = count != ends[whole];
        check_walk(count, 0, 66, 0, (struct gorvlime_walked){cut ? 7 : 0, cut ? ends[whole] : 0, whole, ends[whole], !cut});
    }
}

/* What 15 and 16 carry stands in the rows. */
static void check_unreadable_rows(void)
{
    static const uint64_t expected[2 * GORVLIME_ROW] = {
        1, 2, 3, 4, 5, 1, 15, 2, 0, 0, 2,
        2, 2, 3, 4, 11, 1, 16, 2, 0, 0, 0,
    };
    struct lent dump = lend(UNREADABLE_DUMP);
    uint64_t rows[2 * GORVLIME_ROW];
    calling("walk of %s", UNREADABLE_DUMP);
    same_walk(CALL(walk)(LENT(dump), 0, rows, 2 * GORVLIME_ROW), (struct gorvlime_walked){.rows = 2, .next = 12});
    for (unsigned i = 0; i < 2 * GORVLIME_ROW; i++)
        same("a number of the rows", rows[i], expected[i]);
}

/* Records one after the other that differ in m only, in t only or in v only: each is read by its own layout. */
static void check_changing_fields(void)
{
    static const uint64_t fields[][3] = {
        {2, 2, 4}, {2, 2, 20}, {2, 3, 20}, {2, 3, 4}, {3, 3, 4}, {3, 2, 4}, {2, 2, 4}, {2, 3, 4},
    };
    enum { FIELDS = sizeof fields / sizeof fields[0] };
    struct lent dump = lend_room(MOST_LENT);
    uint64_t rows[FIELDS * GORVLIME_ROW];
    size_t start[FIELDS], length[FIELDS];
    dump.count = 0;
    for (unsigned i = 0; i < FIELDS; i++) {
        const uint64_t *f = fields[i];
        struct gorvlime_shape shape = SHAPE(f[0], f[1], f[2]);
        uint8_t cells[8] = {0}, *out = dump.all + MARGIN + dump.count;
        length[i] = (f[0] * CALL(layout)(shape, 256).h[0] + 7) / 8;
        CALL(write)(shape, cells, length[i], 3);
        dump.count += CALL(export)(i, f[0], f[1], f[2], cells, length[i], out, MOST_LENT - dump.count).length;
        start[i] = dump.count - length[i];
    }
    calling("walk of records that differ in m, t or v");
    same_walk(CALL(walk)(LENT(dump), 0, rows, FIELDS * GORVLIME_ROW), (struct gorvlime_walked){0, 0, FIELDS, dump.count, 0});
    for (unsigned i = 0; i < FIELDS; i++) {
        const uint64_t *f = fields[i];
        const uint64_t expected[GORVLIME_ROW] = {i, f[0], f[1], f[2], start[i], length[i], 0, 1, 3, f[1] - 1, 0};
        for (unsigned j = 0; j < GORVLIME_ROW; j++)
            same("a number of the rows", rows[i * GORVLIME_ROW + j], expected[j]);
    }
}

/* 65,536 zeros are 13,107 records of five bytes, each refused with 1, and a byte too many. */
static void check_large_dumps(void)
{
    size_t rows_count = 13108 * GORVLIME_ROW;
    uint8_t *dump = calloc(GORVLIME_DUMP_MOST + 1, 1);
    uint64_t *rows = calloc(rows_count, sizeof *rows);
    if (dump == NULL || rows == NULL)
        abort();
    calling("walk of 65,536 zeros");
    same_walk(CALL(walk)(dump, GORVLIME_DUMP_MOST, 0, rows, rows_count),
              (struct gorvlime_walked){7, 65535, 13107, 65535, 0});
    for (size_t i = 0; i < 13107; i++) {
        same("start", rows[i * GORVLIME_ROW + 4], 5 * i + 5);
        same("refused", rows[i * GORVLIME_ROW + 6], 1);
    }
    calling("step of 65,536 zeros");
    same_step(CALL(step)(dump, GORVLIME_DUMP_MOST, 65530),
              (struct gorvlime_found){.records = 1, .start = 65535, .next = 65535, .refused = 1});
    same_step(CALL(step)(dump, GORVLIME_DUMP_MOST, 65535), (struct gorvlime_found)STOP(65535));
    calling("walk of 65,537 bytes");
    same_walk(CALL(walk)(dump, GORVLIME_DUMP_MOST + 1, 0, rows, rows_count), (struct gorvlime_walked){.refusal = 8});
    same_walk(CALL(walk)(dump, GORVLIME_DUMP_MOST + 1, GORVLIME_DUMP_MOST + 1, rows, rows_count),
              (struct gorvlime_walked){.refusal = 8});
    same_walk(CALL(walk)(dump, GORVLIME_DUMP_MOST + 1, 0, rows, 0), (struct gorvlime_walked){.refusal = 8});
    calling("step of 65,537 bytes");
    same_step(CALL(step)(dump, GORVLIME_DUMP_MOST + 1, 0), (struct gorvlime_found){.refusal = 8});
    same_step(CALL(step)(dump, GORVLIME_DUMP_MOST + 1, GORVLIME_DUMP_MOST + 1), (struct gorvlime_found){.refusal = 8});
    free(dump);
    free(rows);
}

void check_dump_calls(void)
{
    check_exports();
    check_steps();
    check_walks();
    check_unreadable_rows();
    check_changing_fields();
    check_large_dumps();
}
