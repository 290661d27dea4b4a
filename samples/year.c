/*
 * Makes the dumps of samples/year: one at each month's end of 2025, named by its day. Six escalator drives keep the brake
 * travel since their lining was fitted, in micrometres, in a counter field each; wear lets it rise, a new lining sets it
 * back. The wear is drawn from a seeded generator, so that the bytes are the same each time.
 *
 *     make archive
 *     tools/cc samples/year.c target/staticlib/libgorvlime.a -o target/year
 *     tools/run-c target/year samples/year
 */
#include "gorvlime.h"

#include <inttypes.h>
#include <stdio.h>
#include <stdlib.h>
#include <string.h>

enum { CELLS = 35 };

/* The list of every dump, by form: drives in service have 0, the one that is new in spring 1. */
static const struct gorvlime_shape shapes[] = {
    {.m = 2, .t = 10, .count = 1, .v = {1ull << 56}},
    {.form = 1, .m = 2, .t = 10, .count = 1, .v = {1ull << 56}},
};

enum { FORMS = sizeof shapes / sizeof shapes[0] };

/* What happens to a drive in a month, before its dump is taken. */
enum event {
    ABSENT = '-',    /* the drive is not there yet */
    NONE = '.',      /* nothing is written: the field keeps its number, or stays blank */
    WRITE = 'w',     /* the travel is written */
    LINING = 'l',    /* a new lining is fitted, and its travel written at the month's end */
    START = 's',     /* a new drive is put into service: its first number is 0 */
    CUT_OFF = 'c',   /* the travel is being written when the supply fails: the field is unreadable from then on */
    BOARD = 'b',     /* a fitter replaces the board. Its field is blank, and the travel is written */
};

struct drive {
    uint64_t serial, form;
    uint64_t travel, wear;   /* before the first write; at least so much is added each month */
    int earlier;             /* writes in the months before the year */
    const char *months;
    uint8_t cells[CELLS];
};

static struct drive drives[] = {
    {.serial = 4101, .travel = 1250, .wear = 80, .earlier = 1, .months = "ww.ww.ww.ww."},
    {.serial = 4102, .travel = 2050, .wear = 150, .earlier = 1, .months = "w.wwwlw.w.w."},
    {.serial = 4103, .travel = 310, .wear = 120, .earlier = 0, .months = "wwwwwwwwww.."},
    {.serial = 4104, .travel = 1760, .wear = 60, .earlier = 3, .months = "w.w.w.cb.w.w"},
    {.serial = 4105, .travel = 150, .wear = 25, .earlier = 4, .months = "w..w..w..w.."},
    {.serial = 5101, .form = 1, .wear = 100, .months = "--..swww.www"},
};

enum { DRIVES = sizeof drives / sizeof drives[0] };

static const int days[] = {31, 28, 31, 30, 31, 30, 31, 31, 30, 31, 30, 31};

enum { MONTHS = sizeof days / sizeof days[0] };

static void fail(const char *what, uint64_t refusal)
{
    fprintf(stderr, "year: %s, refusal %" PRIu64 "\n", what, refusal);
    exit(1);
}

/* splitmix64 */
static uint64_t drawn(void)
{
    static uint64_t state = 2025;
    uint64_t z = state += 0x9e3779b97f4a7c15;
    z = (z ^ (z >> 30)) * 0xbf58476d1ce4e5b9;
    z = (z ^ (z >> 27)) * 0x94d049bb133111eb;
    return z ^ (z >> 31);
}

static void write_travel(struct drive *d)
{
    struct gorvlime_writing written = gorvlime_write(shapes[d->form], d->cells, CELLS, d->travel);
    if (written.refusal != GORVLIME_ACCEPTED)
        fail("a write that should have been accepted", written.refusal);
}

/* The board turns cells from the front on and loses its supply halfway. */
static void cut_write_off(struct drive *d)
{
    struct drive whole = *d;
    write_travel(&whole);
    memcpy(d->cells, whole.cells, CELLS / 2);
    struct gorvlime_reading reading = gorvlime_read(shapes[d->form], d->cells, CELLS);
    if (reading.refusal != GORVLIME_MISCOUNTED)
        fail("a cut-off write that should have left unreadable cells", reading.refusal);
}

static void wear_down(struct drive *d)
{
    d->travel += d->wear + drawn() % (d->wear / 3);
}

static void pass_month(struct drive *d, enum event event)
{
    if (event == LINING || event == START)
        d->travel = 0;
    if (event != START)
        wear_down(d);
    if (event == BOARD)
        memset(d->cells, 0, CELLS);
    if (event == CUT_OFF)
        cut_write_off(d);
    else if (event != ABSENT && event != NONE)
        write_travel(d);
}

struct dump {
    size_t count;
    /* The count of layouts, the layouts, all with one range, and the records. */
    uint8_t bytes[1 + FORMS * GORVLIME_LAYOUT_ONE_RANGE_MOST + DRIVES * GORVLIME_RECORD_NEW_MOST];
};

#define REST_OF(dump) (dump)->bytes + (dump)->count, sizeof (dump)->bytes - (dump)->count

static void keep(struct dump *dump, struct gorvlime_stored stored)
{
    if (stored.refusal != GORVLIME_ACCEPTED)
        fail("an export that should have been accepted", stored.refusal);
    dump->count += stored.length;
}

static void make_dump(struct dump *dump, int month)
{
    dump->count = 0;
    dump->bytes[dump->count++] = FORMS;
    for (int form = 0; form < FORMS; form++)
        keep(dump, gorvlime_export_layout(shapes[form], REST_OF(dump)));
    for (struct drive *d = drives; d < drives + DRIVES; d++)
        if (d->months[month] != ABSENT)
            keep(dump, gorvlime_export_record(d->serial, d->form, shapes[d->form], d->cells, CELLS, REST_OF(dump)));
}

static void store(const struct dump *dump, const char *folder, int month)
{
    char name[4096];
    int length = snprintf(name, sizeof name, "%s/2025-%02d-%02d.dump", folder, month + 1, days[month]);
    FILE *file = length < (int)sizeof name ? fopen(name, "wb") : NULL;
    if (!file || fwrite(dump->bytes, 1, dump->count, file) != dump->count || fclose(file) != 0) {
        fprintf(stderr, "year: cannot write %s\n", name);
        exit(1);
    }
}

static void check_sizes(void)
{
    for (int form = 0; form < FORMS; form++) {
        struct gorvlime_counts counts = gorvlime_layout(shapes[form], GORVLIME_GROUPS_MOST);
        if (counts.refusal != GORVLIME_ACCEPTED || (shapes[form].m * counts.h[0] + 7) / 8 != CELLS)
            fail("a field of another size", counts.refusal);
    }
}

int main(int count, char **words)
{
    if (count != 2) {
        fputs("usage: year FOLDER\n", stderr);
        return 2;
    }
    check_sizes();
    for (struct drive *d = drives; d < drives + DRIVES; d++)
        for (int i = 0; i < d->earlier; i++)
            pass_month(d, WRITE);
    for (int month = 0; month < MONTHS; month++) {
        struct dump dump;
        for (struct drive *d = drives; d < drives + DRIVES; d++)
            pass_month(d, d->months[month]);
        make_dump(&dump, month);
        store(&dump, words[1], month);
    }
    return 0;
}
