/* The calls that make and list dumps, and those for HEX texts. */
#include "answers.h"

#include <stdio.h>
#include <string.h>

enum { MOST_OUTPUT = 262144, ROWS_AT_ONCE = 7 };

static uint8_t output[MOST_OUTPUT];   /* lent by the calls that store one */

static size_t get_output(void)
{
    size_t count = get_count(MOST_OUTPUT);
    memset(output, OUTPUT_FILL, count);
    return count;
}

static void put_stored(const char *word, struct gorvlime_stored e, size_t output_count)
{
    uint64_t numbers[] = {e.refusal, e.length};
    put_numbers(word, numbers, e.refusal == 0 ? 2 : 1);
    put_hex(output, output_count);
    putchar('\n');
}

void answer_export(struct lent *lent)
{
    uint64_t serial = get_number();
    uint64_t m = get_number(), t = get_number(), v = get_number();
    size_t output_count = get_output();
    get_bytes(lent);
    struct gorvlime_stored e = CALL(export)(serial, m, t, v, lent->bytes, lent->count, output, output_count);
    put_stored("export", e, output_count);
}

void answer_hex_export(struct lent *lent)
{
    size_t output_count = get_output();
    get_bytes(lent);
    put_stored("hex", CALL(hex_export)(lent->bytes, lent->count, output, output_count), output_count);
}

void answer_hex_import(struct lent *lent)
{
    size_t output_count = get_output();
    get_bytes(lent);
    put_stored("unhex", CALL(hex_import)(lent->bytes, lent->count, output, output_count), output_count);
}

/* Prints a row and takes the step that it should come from. False: the step says otherwise. */
static int put_record(const struct lent *dump, const uint64_t *row, size_t *at)
{
    struct gorvlime_found s = CALL(step)(dump->bytes, dump->count, *at);
    uint64_t same[GORVLIME_ROW] = {
        s.serial, s.m, s.t, s.v, s.start, s.length, s.refused, s.generation, s.number, s.left, s.unerased,
    };
    put_numbers("record", row, 6);
    put_reply(row + 6);
    *at = s.next;
    return s.refusal == 0 && s.records == 1 && s.offset == 0 && memcmp(row, same, sizeof same) == 0;
}

static int is_where_steps_end(const struct lent *dump, const struct gorvlime_walked *w, size_t at)
{
    struct gorvlime_found s = CALL(step)(dump->bytes, dump->count, at);
    return s.records == 0 && s.refusal == w->refusal && s.offset == w->offset;
}

static void put_ending(const struct gorvlime_walked *w)
{
    uint64_t numbers[] = {w->refusal, w->offset};
    if (w->refusal == 0)
        fputs("end", stdout);
    else
        put_numbers("stop", numbers, w->refusal == 8 ? 1 : 2);
    putchar('\n');
}

/* The walk a few rows at a time, and beside it step by step. */
void answer_walk(struct lent *dump)
{
    uint64_t rows[ROWS_AT_ONCE * GORVLIME_ROW];
    struct gorvlime_walked w = {0};
    size_t at = 0;
    int same = 1;
    get_bytes(dump);
    do {
        w = CALL(walk)(dump->bytes, dump->count, w.next, rows, sizeof rows / sizeof rows[0]);
        for (size_t i = 0; i < w.rows; i++)
            same &= put_record(dump, rows + i * GORVLIME_ROW, &at);
        same &= w.refusal == 8 || w.next == at;
    } while (w.refusal == 0 && w.ended == 0 && w.rows > 0);
    same &= w.refusal != 0 || w.ended == 1;
    if (!same || !is_where_steps_end(dump, &w, at))
        puts("walk and steps differ");
    put_ending(&w);
}

/* False: the layout that has a row's number is not the row's, has another count of ranges, or a range behind them. */
static int is_listed(const uint64_t *row, const struct gorvlime_listed *listed)
{
    const struct gorvlime_shape *s = &listed->shape;
    uint64_t same[] = {s->form, s->m, s->t, s->v[0]}, behind = 0;
    for (size_t i = s->count; i < GORVLIME_RANGES_MOST; i++)
        behind |= s->v[i];
    return listed->refusal == 0 && memcmp(row + 2, same, sizeof same) == 0 && behind == 0
        && s->count == (s->form == 2 ? s->t : 1) && s->count <= GORVLIME_RANGES_MOST;
}

/* As for an old dump, with all ranges of the layout where a row has the first. */
static int put_new_record(const struct lent *dump, const uint64_t *row, size_t *at)
{
    struct gorvlime_found_new s = CALL(step_new)(dump->bytes, dump->count, *at);
    struct gorvlime_listed listed = CALL(listed_shape)(dump->bytes, dump->count, row[1]);
    uint64_t same[GORVLIME_ROW_NEW] = {
        s.serial, s.layout, s.form, s.m, s.t, s.v, s.start, s.length, s.refused, s.generation, s.number, s.left, s.unerased,
    };
    if (!is_listed(row, &listed))
        return 0;
    put_numbers("record", row, 5);
    put_numbers("", listed.shape.v, listed.shape.count);
    put_numbers("", row + 6, 2);
    put_reply(row + 8);
    *at = s.next;
    return s.refusal == 0 && s.records == 1 && s.offset == 0 && memcmp(row, same, sizeof same) == 0;
}

/* A dump whose list is refused has no layout, and no other has one more than it lists. */
static int is_listed_no_more(const struct lent *dump, const struct gorvlime_opened *opened)
{
    static const struct gorvlime_shape none;
    struct gorvlime_listed listed = CALL(listed_shape)(dump->bytes, dump->count, opened->layouts);
    return listed.refusal == (opened->refusal != 0 ? opened->refusal : 1) && memcmp(&listed.shape, &none, sizeof none) == 0;
}

static int is_where_new_steps_end(const struct lent *dump, const struct gorvlime_walked *w, size_t at)
{
    struct gorvlime_found_new s = CALL(step_new)(dump->bytes, dump->count, at);
    return s.records == 0 && s.refusal == w->refusal && s.offset == w->offset;
}

/* The same for a new dump, from where its list ends. A list that is refused is refused by the walk and by a step too. */
void answer_walk_new(struct lent *dump)
{
    uint64_t rows[ROWS_AT_ONCE * GORVLIME_ROW_NEW];
    struct gorvlime_walked w;
    get_bytes(dump);
    struct gorvlime_opened opened = CALL(open_new)(dump->bytes, dump->count);
    size_t at = opened.first, next = opened.first;
    int same = opened.offset == 0 && (opened.refusal == 0 || opened.layouts + opened.first == 0)
        && is_listed_no_more(dump, &opened);
    do {
        w = CALL(walk_new)(dump->bytes, dump->count, next, rows, sizeof rows / sizeof rows[0]);
        next = w.next;
        for (size_t i = 0; i < w.rows; i++)
            same &= put_new_record(dump, rows + i * GORVLIME_ROW_NEW, &at);
        same &= w.next == at;
    } while (w.refusal == 0 && w.ended == 0 && w.rows > 0);
    same &= w.refusal != 0 || w.ended == 1;
    same &= opened.refusal == 0 || (w.refusal == opened.refusal && w.offset + w.rows + w.ended == 0);
    if (!same || !is_where_new_steps_end(dump, &w, at))
        puts("walk and steps of the new dump differ");
    put_ending(&w);
}

static void put_moved(const char *word, struct gorvlime_moved m, size_t output_count)
{
    uint64_t numbers[] = {m.refusal, m.refusal == 7 ? m.offset : m.length};
    put_numbers(word, numbers, m.refusal == 0 || m.refusal == 7 ? 2 : 1);
    put_hex(output, output_count);
    putchar('\n');
}

void answer_move_to_new(struct lent *dump)
{
    size_t output_count = get_output();
    get_bytes(dump);
    put_moved("new", CALL(move_to_new)(dump->bytes, dump->count, output, output_count), output_count);
}

void answer_move_to_old(struct lent *dump)
{
    size_t output_count = get_output();
    get_bytes(dump);
    put_moved("old", CALL(move_to_old)(dump->bytes, dump->count, output, output_count), output_count);
}

void answer_export_layout(void)
{
    struct gorvlime_shape shape = get_shape();
    size_t output_count = get_output();
    put_stored("listed", CALL(export_layout)(shape, output, output_count), output_count);
}

void answer_export_record(struct lent *lent)
{
    uint64_t serial = get_number(), layout = get_number();
    struct gorvlime_shape shape = get_shape();
    size_t output_count = get_output();
    get_bytes(lent);
    struct gorvlime_stored e = CALL(export_record)(serial, layout, shape, lent->bytes, lent->count, output, output_count);
    put_stored("export", e, output_count);
}
