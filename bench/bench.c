/*
 * What the archive costs beside plain C: all calls on the drives' field, m 2, t 10, v 2^56, 64 of them written at once and
 * one by one, refused writes, a write that is judged and the two reads of its cells, a write that was cut off and is
 * resumed, a pair that is read, the two reads of its cells and all writes of a pair, reads in form 1, layout, reads and
 * writes in form 2 with ranges that fall from 2^56 to 2^20, reads and writes on the largest fields and on a small one, a dump
 * of full size to HEX and back, a new dump of full size, and dumps of two sizes moved both ways.
 *
 *     bench list               the cases, a line for each: calls in one run of it, records and bytes of the dump that it
 *                              goes through (0 for none), and its name
 *     bench same               compares the answers of both in every case
 *     bench count CASE WHO     one run of a case by p (plain C), a (the archive) or n (nobody), to count its instructions
 *     bench time ROUNDS        for each round and case: the case, and nanoseconds of a run by plain C and by the archive
 */
#define _POSIX_C_SOURCE 199309L   /* clock_gettime */

#include "samples.h"

#include <stdio.h>
#include <stdlib.h>
#include <string.h>
#include <time.h>

enum { ROWS = (NEW_RECORDS + 1) * GORVLIME_ROW_NEW };

struct calls {
    struct gorvlime_counts (*layout)(struct gorvlime_shape, uint64_t);
    struct gorvlime_reading (*read)(struct gorvlime_shape, const uint8_t *, size_t);
    struct gorvlime_writing (*write)(struct gorvlime_shape, uint8_t *, size_t, uint64_t);
    struct gorvlime_many (*write_many)(struct gorvlime_shape, uint8_t *, size_t, const uint64_t *, size_t);
    struct gorvlime_judged (*judge)(struct gorvlime_shape, const uint8_t *, size_t, const uint8_t *, size_t);
    struct gorvlime_resumed (*resume)(struct gorvlime_shape, uint8_t *, size_t, uint64_t);
    struct gorvlime_pair_reading (*read_pair)(struct gorvlime_pair, const uint8_t *, size_t, const uint8_t *, size_t);
    struct gorvlime_pair_writing (*write_pair)(struct gorvlime_pair, uint8_t *, size_t, uint8_t *, size_t, uint64_t);
    struct gorvlime_stored (*export)(uint64_t, uint64_t, uint64_t, uint64_t, const uint8_t *, size_t, uint8_t *, size_t);
    struct gorvlime_walked (*walk)(const uint8_t *, size_t, size_t, uint64_t *, size_t);
    struct gorvlime_walked (*walk_new)(const uint8_t *, size_t, size_t, uint64_t *, size_t);
    struct gorvlime_moved (*move_to_new)(const uint8_t *, size_t, uint8_t *, size_t);
    struct gorvlime_moved (*move_to_old)(const uint8_t *, size_t, uint8_t *, size_t);
    struct gorvlime_stored (*hex_export)(const uint8_t *, size_t, uint8_t *, size_t);
    struct gorvlime_stored (*hex_import)(const uint8_t *, size_t, uint8_t *, size_t);
};

static const struct calls plain = {
    plain_layout, plain_read, plain_write, plain_write_many, plain_judge, plain_resume, plain_read_pair, plain_write_pair,
    plain_export, plain_walk, plain_walk_new, plain_move_to_new, plain_move_to_old,
    plain_hex_export, plain_hex_import,
};
static const struct calls archive = {
    gorvlime_layout, gorvlime_read, gorvlime_write, gorvlime_write_many, gorvlime_judge, gorvlime_resume,
    gorvlime_read_pair, gorvlime_write_pair, gorvlime_export, gorvlime_walk, gorvlime_walk_new, gorvlime_move_to_new, gorvlime_move_to_old,
    gorvlime_hex_export, gorvlime_hex_import,
};

static uint64_t rows[ROWS];
static uint8_t out[TEXT];    /* of a HEX call or a move, or the cells of many fields */
static uint64_t quarter[GORVLIME_MANY];   /* numbers for as many fields */
static uint64_t answers;     /* all answers of a run, folded into one number */

struct task {
    unsigned calls, times;   /* calls in a run; runs that are timed together */
    void (*run)(const struct calls *, const struct task *);
    struct sample *sample;
    unsigned generation;     /* which one, or how many */
    struct dump *dump;
    const char *name;
};

static void fold(uint64_t answer)
{
    answers = answers * 31 + answer;
}

static void run_layout(const struct calls *c, const struct task *t)
{
    for (unsigned i = 0; i < CHAINS; i++)
        fold(c->layout(t->sample->shape, 256 - i).h[0]);
}

static void run_reads(const struct calls *c, const struct task *t)
{
    const struct sample *s = t->sample;
    for (unsigned i = 0; i < CHAINS; i++)
        fold(c->read(s->shape, s->written[i][t->generation - 1], s->cells).number);
}

static void run_writes(const struct calls *c, const struct task *t)
{
    const struct sample *s = t->sample;
    for (unsigned i = 0; i < CHAINS; i++) {
        uint8_t cells[GORVLIME_CELLS_MOST] = {0};
        for (unsigned j = 0; j < t->generation; j++)
            fold(c->write(s->shape, cells, s->cells, s->numbers[i][j]).turned);
        fold(cells[i]);
    }
}

static void run_write_many(const struct calls *c, const struct task *t)
{
    size_t cells = GORVLIME_MANY * t->sample->cells;
    memset(out, 0, cells);
    struct gorvlime_many w = c->write_many(t->sample->shape, out, cells, quarter, GORVLIME_MANY);
    for (unsigned i = 0; i < GORVLIME_MANY; i++)
        fold(w.turned[i]);
}

static void run_single_writes(const struct calls *c, const struct task *t)
{
    size_t cells = t->sample->cells;
    memset(out, 0, GORVLIME_MANY * cells);
    for (unsigned i = 0; i < GORVLIME_MANY; i++)
        fold(c->write(t->sample->shape, out + i * cells, cells, quarter[i]).turned);
}

/* The write of a generation from 2 on, by its cells before and after. */
static void run_judge(const struct calls *c, const struct task *t)
{
    const struct sample *s = t->sample;
    for (unsigned i = 0; i < CHAINS; i++) {
        const uint8_t *before = s->written[i][t->generation - 2], *after = s->written[i][t->generation - 1];
        struct gorvlime_judged j = c->judge(s->shape, before, s->cells, after, s->cells);
        fold(j.yes);
        fold(j.number);
    }
}

/* The cells of such a write, each read by itself. */
static void run_reads_of_both(const struct calls *c, const struct task *t)
{
    const struct sample *s = t->sample;
    for (unsigned i = 0; i < CHAINS; i++) {
        fold(c->read(s->shape, s->written[i][t->generation - 2], s->cells).number);
        fold(c->read(s->shape, s->written[i][t->generation - 1], s->cells).number);
    }
}

/* The write of a generation from 2 on, cut off halfway: the bytes in front are those after it, the others those before. */
static void run_resume(const struct calls *c, const struct task *t)
{
    const struct sample *s = t->sample;
    for (unsigned i = 0; i < CHAINS; i++) {
        uint8_t cells[GORVLIME_CELLS_MOST];
        memcpy(cells, s->written[i][t->generation - 2], s->cells);
        memcpy(cells, s->written[i][t->generation - 1], s->cells / 2);
        struct gorvlime_resumed r = c->resume(s->shape, cells, s->cells, s->numbers[i][t->generation - 1]);
        fold(r.generation);
        fold(r.turned);
        fold(r.erased[0]);
        fold(cells[i]);
    }
}

/* Two fields of one shape. */
static struct gorvlime_pair pair_of(const struct sample *s)
{
    struct gorvlime_shape f = s->shape;
    return (struct gorvlime_pair){.form = f.form, .m = f.m, .t1 = f.t, .v1 = f.v[0], .t2 = f.t, .v2 = f.v[0]};
}

/* The cells of a pair whose first field is spent and whose second has some generations, of the next chain. */
static const uint8_t *first_of(const struct sample *s, unsigned chain)
{
    return s->written[chain][s->shape.t - 1];
}

static const uint8_t *second_of(const struct task *t, unsigned chain)
{
    return t->sample->written[(chain + 1) % CHAINS][t->generation - 1];
}

static void run_read_pair(const struct calls *c, const struct task *t)
{
    const struct sample *s = t->sample;
    for (unsigned i = 0; i < CHAINS; i++)
        fold(c->read_pair(pair_of(s), first_of(s, i), s->cells, second_of(t, i), s->cells).number);
}

/* Each by itself. */
static void run_reads_of_pair(const struct calls *c, const struct task *t)
{
    const struct sample *s = t->sample;
    for (unsigned i = 0; i < CHAINS; i++) {
        fold(c->read(s->shape, first_of(s, i), s->cells).number);
        fold(c->read(s->shape, second_of(t, i), s->cells).number);
    }
}

/* From blank cells until both fields are spent. */
static void run_write_pair(const struct calls *c, const struct task *t)
{
    const struct sample *s = t->sample;
    for (unsigned i = 0; i < CHAINS; i++) {
        uint8_t cells[2][GORVLIME_CELLS_MOST] = {{0}};
        for (unsigned j = 0; j < 2 * t->generation; j++) {
            uint64_t number = s->numbers[i][j % t->generation];
            fold(c->write_pair(pair_of(s), cells[0], s->cells, cells[1], s->cells, number).turned);
        }
        fold(cells[0][i] + cells[1][i]);
    }
}

/* Refused for the cells, behind the layout; with no generation in the shape refused before it. */
static void run_refused_writes(const struct calls *c, const struct task *t)
{
    struct gorvlime_shape shape = t->sample->shape;
    shape.t = t->generation;
    for (unsigned i = 0; i < CHAINS; i++)
        fold(c->write(shape, out, 0, i).refusal);
}

static void run_export(const struct calls *c, const struct task *t)
{
    uint8_t record[GORVLIME_RECORD_MOST];
    const struct sample *s = t->sample;
    struct gorvlime_shape f = s->shape;
    for (unsigned i = 0; i < CHAINS; i++) {
        const uint8_t *cells = s->written[i][t->generation - 1];
        fold(c->export(300 + i, f.m, f.t, f.v[0], cells, s->cells, record, sizeof record).length);
        fold(record[20]);
    }
}

static void run_walk(const struct calls *c, const struct task *t)
{
    fold(c->walk(t->dump->bytes, t->dump->count, t->dump->first, rows, ROWS).rows);
}

static void run_walk_new(const struct calls *c, const struct task *t)
{
    fold(c->walk_new(t->dump->bytes, t->dump->count, t->dump->first, rows, ROWS).rows);
}

static void run_move_to_new(const struct calls *c, const struct task *t)
{
    fold(c->move_to_new(t->dump->bytes, t->dump->count, out, DUMP).length);
}

static void run_move_to_old(const struct calls *c, const struct task *t)
{
    fold(c->move_to_old(t->dump->bytes, t->dump->count, out, DUMP).length);
}

static void run_hex_export(const struct calls *c, const struct task *t)
{
    fold(c->hex_export(t->dump->bytes, t->dump->count, out, TEXT).length);
}

static void run_hex_import(const struct calls *c, const struct task *t)
{
    fold(c->hex_import(hex_text, TEXT, out, t->dump->count).length);
}

static const struct task cases[] = {
    {CHAINS, 20, run_layout, &drives, 1, NULL, "layout"},
    {CHAINS, 10, run_reads, &drives, 1, NULL, "read at generation 1"},
    {CHAINS, 10, run_reads, &drives, 5, NULL, "read at generation 5"},
    {CHAINS, 10, run_reads, &drives, 10, NULL, "read at generation 10"},
    {CHAINS, 1, run_writes, &drives, 10, NULL, "ten writes"},
    {1, 1, run_write_many, &drives, 1, NULL, "64 writes at once"},
    {1, 1, run_single_writes, &drives, 1, NULL, "64 single writes"},
    {CHAINS, 20, run_refused_writes, &drives, 10, NULL, "write refused with 3"},
    {CHAINS, 20, run_refused_writes, &drives, 0, NULL, "write refused with 1"},
    {CHAINS, 10, run_judge, &drives, 5, NULL, "judge at generation 5"},
    {CHAINS, 10, run_reads_of_both, &drives, 5, NULL, "reads at generations 4 and 5"},
    {CHAINS, 10, run_resume, &drives, 5, NULL, "resume of write 5, cut off halfway"},
    {CHAINS, 10, run_read_pair, &drives, 5, NULL, "pair read at generations 10 and 5"},
    {CHAINS, 10, run_reads_of_pair, &drives, 5, NULL, "reads at generations 10 and 5"},
    {CHAINS, 1, run_write_pair, &drives, 10, NULL, "twenty writes of a pair"},
    {CHAINS, 20, run_export, &drives, 6, NULL, "export"},
    {1, 1, run_walk, &drives, 0, &old_dump, "walk of 1,337 records"},
    {1, 1, run_walk_new, &drives, 0, &new_dump, "walk of 1,680 records of a new dump"},
    {1, 1, run_move_to_new, &drives, 0, &old_dump, "move to new of 1,337 records"},
    {1, 1, run_move_to_new, &drives, 0, &half_dump, "move to new of 668 records"},
    {1, 1, run_move_to_old, &drives, 0, &moved_dump, "move to old of 1,337 records"},
    {1, 1, run_move_to_old, &drives, 0, &moved_half, "move to old of 668 records"},
    {1, 1, run_hex_export, &drives, 0, &old_dump, "HEX export of 65,536 bytes"},
    {1, 1, run_hex_import, &drives, 0, &old_dump, "HEX import of 65,536 bytes"},
    {CHAINS, 10, run_reads, &widest_2, 8, NULL, "m 2, t 16, v 2^56: read at generation 8"},
    {CHAINS, 1, run_writes, &widest_2, 16, NULL, "m 2, t 16, v 2^56: 16 writes"},
    {CHAINS, 10, run_reads, &widest_3, 8, NULL, "m 3, t 16, v 2^56: read at generation 8"},
    {CHAINS, 1, run_writes, &widest_3, 16, NULL, "m 3, t 16, v 2^56: 16 writes"},
    {CHAINS, 10, run_reads, &widest_4, 8, NULL, "m 4, t 16, v 2^56: read at generation 8"},
    {CHAINS, 1, run_writes, &widest_4, 16, NULL, "m 4, t 16, v 2^56: 16 writes"},
    {CHAINS, 10, run_reads, &new_drives, 5, NULL, "form 1: read at generation 5"},
    {CHAINS, 20, run_layout, &shrinking, 1, NULL, "form 2, v 2^56 to 2^20: layout"},
    {CHAINS, 10, run_reads, &shrinking, 5, NULL, "form 2, v 2^56 to 2^20: read at generation 5"},
    {CHAINS, 1, run_writes, &shrinking, 10, NULL, "form 2, v 2^56 to 2^20: ten writes"},
    {CHAINS, 100, run_reads, &small, 2, NULL, "m 2, t 3, v 4: read at generation 2"},
    {CHAINS, 100, run_writes, &small, 3, NULL, "m 2, t 3, v 4: 3 writes"},
};

enum { CASES = sizeof cases / sizeof cases[0] };

/* What a case runs over. It is made once. */
static void prepare(unsigned i)
{
    prepare_chains(cases[i].sample);
    for (unsigned j = 0; j < GORVLIME_MANY; j++)
        quarter[j] = drives.numbers[j % CHAINS][j / CHAINS];
    if (cases[i].dump != NULL)
        prepare_dumps();
}

static void list_cases(void)
{
    for (unsigned i = 0; i < CASES; i++) {
        prepare(i);
        const struct dump *d = cases[i].dump;
        printf("%u %u %zu %s\n", cases[i].calls, d ? d->records : 0, d ? d->count : 0, cases[i].name);
    }
}

static void run_case(unsigned i, const struct calls *c)
{
    cases[i].run(c, &cases[i]);
}

static uint64_t answers_of(unsigned i, const struct calls *c)
{
    answers = 0;
    memset(rows, 0, sizeof rows);
    memset(out, 0, sizeof out);
    run_case(i, c);
    for (unsigned j = 0; j < ROWS; j++)
        fold(rows[j]);
    for (unsigned j = 0; j < TEXT; j++)
        fold(out[j]);
    return answers;
}

static int compare(void)
{
    for (unsigned i = 0; i < CASES; i++) {
        prepare(i);
        if (answers_of(i, &plain) != answers_of(i, &archive)) {
            printf("%s: the answers differ\n", cases[i].name);
            return 1;
        }
    }
    return 0;
}

static int count_one(unsigned i, char who)
{
    if (i >= CASES)
        return 2;
    prepare(i);
    if (who == 'p')
        run_case(i, &plain);
    if (who == 'a')
        run_case(i, &archive);
    return 0;
}

static double nanoseconds(unsigned i, const struct calls *c)
{
    struct timespec from, to;
    clock_gettime(CLOCK_MONOTONIC, &from);
    for (unsigned j = 0; j < cases[i].times; j++)
        run_case(i, c);
    clock_gettime(CLOCK_MONOTONIC, &to);
    return ((to.tv_sec - from.tv_sec) * 1e9 + (to.tv_nsec - from.tv_nsec)) / cases[i].times;
}

/* Who goes first changes from round to round. */
static void time_all(unsigned rounds)
{
    for (unsigned i = 0; i < CASES; i++)
        prepare(i);
    for (unsigned round = 0; round < rounds; round++) {
        for (unsigned i = 0; i < CASES; i++) {
            double ours, theirs;
            if (round % 2 == 0) {
                ours = nanoseconds(i, &plain);
                theirs = nanoseconds(i, &archive);
            } else {
                theirs = nanoseconds(i, &archive);
                ours = nanoseconds(i, &plain);
            }
            printf("%u %.0f %.0f\n", i, ours, theirs);
        }
    }
}

int main(int count, char **words)
{
    const char *command = count > 1 ? words[1] : "";
    if (strcmp(command, "list") == 0 && count == 2) {
        list_cases();
        return 0;
    }
    if (strcmp(command, "same") == 0 && count == 2)
        return compare();
    if (strcmp(command, "count") == 0 && count == 4)
        return count_one(atoi(words[2]), words[3][0]);
    if (strcmp(command, "time") == 0 && count == 3) {
        time_all(atoi(words[2]));
        return 0;
    }
    fputs("usage: bench list | same | count CASE WHO | time ROUNDS\n", stderr);
    return 2;
}
