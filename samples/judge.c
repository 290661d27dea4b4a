/*
 * Makes samples/judge-before.dump and samples/judge-after.dump: the fields of one board before a day's writes and after
 * them. The board is of another make. Where gorvlime_write erases the leftmost spare groups it erases the rightmost, and on
 * that day not all goes well.
 *
 *     make archive
 *     tools/cc samples/judge.c target/staticlib/libgorvlime.a -o target/judge
 *     tools/run-c target/judge samples
 */
#include "gorvlime.h"

#include <inttypes.h>
#include <stdio.h>
#include <stdlib.h>
#include <string.h>

/* All have m 2: a group is zero, erased, or 1 or 2. Of a write that is cut off, so many groups are turned. */
enum { WITS = 2, ERASED = 3, MOST_GROUPS = 139, MOST_EARLIER = 4, TURNED = 12 };

/* The list of both dumps, by form. */
static const struct gorvlime_shape shapes[] = {
    {.m = WITS, .t = 10, .count = 1, .v = {1ull << 56}},
    {.form = 1, .m = WITS, .t = 10, .count = 1, .v = {1ull << 56}},
    {.form = 2, .m = WITS, .t = 4, .count = 4, .v = {1ull << 56, 1ull << 40, 1ull << 30, 1ull << 20}},
};

enum { FORMS = sizeof shapes / sizeof shapes[0] };

/* What happens on that day. */
enum event {
    WRITE,       /* the number is written */
    NOTHING,     /* the field stays as it is */
    TWO_WRITES,  /* another number is written first */
    NOT_ERASED,  /* written but for a used group, which stays as it was: a place is erased in its stead */
    CUT_OFF,     /* the supply fails while the number is written */
    TAKEN_OUT,   /* the drive is not in the dump after */
    PUT_IN,      /* the drive is not in the dump before; the number is written */
};

/* The numbers that were written earlier end with a 0. */
static const struct drive {
    uint64_t serial, form;
    uint64_t earlier[MOST_EARLIER];
    enum event event;
    uint64_t number;
} drives[] = {
    {7001, 0, {1210, 1385}, WRITE, 1502},
    {7002, 0, {830}, WRITE, 1016},
    {7003, 1, {0}, WRITE, 0},
    {7004, 1, {455, 612, 790}, WRITE, 931},
    {7005, 2, {2470}, WRITE, 2655},
    {7006, 0, {1744}, NOT_ERASED, 1903},
    {7007, 0, {365, 540}, NOTHING, 0},
    {7008, 1, {1120}, TWO_WRITES, 1410},
    {7009, 0, {2051, 2230}, CUT_OFF, 2418},
    {7010, 0, {95}, TAKEN_OUT, 0},
    {7011, 1, {0}, PUT_IN, 40},
};

enum { DRIVES = sizeof drives / sizeof drives[0] };

/* A field's values group by group. */
struct field {
    const struct gorvlime_shape *shape;
    size_t groups;
    uint8_t group[MOST_GROUPS];
};

struct cells {
    size_t count;
    uint8_t bytes[GORVLIME_CELLS_MOST];
};

static void fail(const char *what, uint64_t refusal)
{
    fprintf(stderr, "judge: %s, refusal %" PRIu64 "\n", what, refusal);
    exit(1);
}

static struct field blank_field(uint64_t form)
{
    struct field f = {.shape = &shapes[form]};
    struct gorvlime_counts counts = gorvlime_layout(shapes[form], MOST_GROUPS);
    if (counts.refusal != GORVLIME_ACCEPTED)
        fail("a layout that should have been granted", counts.refusal);
    f.groups = counts.h[0];
    return f;
}

/* Groups lie four to a byte, the first in the two high bits. */
static struct cells cells_of(const struct field *f)
{
    struct cells cells = {.count = (WITS * f->groups + 7) / 8};
    for (size_t j = 0; j < f->groups; j++)
        cells.bytes[j / 4] |= f->group[j] << (6 - 2 * (j % 4));
    return cells;
}

static struct field field_of(const struct field *f, const struct cells *cells)
{
    struct field same = *f;
    for (size_t j = 0; j < f->groups; j++)
        same.group[j] = cells->bytes[j / 4] >> (6 - 2 * (j % 4)) & ERASED;
    return same;
}

/* A write as gorvlime_write does it. */
static struct field written_by_us(const struct field *f, uint64_t number)
{
    struct cells cells = cells_of(f);
    struct gorvlime_writing written = gorvlime_write(*f->shape, cells.bytes, cells.count, number);
    if (written.refusal != GORVLIME_ACCEPTED)
        fail("a write that should have been accepted", written.refusal);
    return field_of(f, &cells);
}

static int is_blank(const struct field *f)
{
    size_t j = 0;
    while (j < f->groups && f->group[j] == 0)
        j++;
    return j == f->groups;
}

/* The same pattern, on the leftmost of the zero groups. A first write has no spare groups. */
static struct field written(const struct field *f, uint64_t number)
{
    struct field ours = written_by_us(f, number), after = *f;
    size_t from = 0;
    if (is_blank(f))
        return ours;
    for (size_t j = 0; j < f->groups; j++) {
        while (from < f->groups && ours.group[from] == ERASED)
            from++;
        after.group[j] = f->group[j] == 0 && from < f->groups ? ours.group[from++] : ERASED;
    }
    return after;
}

static size_t first_written(const struct field *f)
{
    size_t j = 0;
    while (f->group[j] == 0 || f->group[j] == ERASED)
        j++;
    return j;
}

static void expect(const struct field *f, uint64_t refusal)
{
    struct cells cells = cells_of(f);
    struct gorvlime_reading reading = gorvlime_read(*f->shape, cells.bytes, cells.count);
    if (reading.refusal != refusal)
        fail("a field that should have been read otherwise", reading.refusal);
}

/* It reads as if all were well. */
static struct field not_erased(const struct field *f, uint64_t number)
{
    struct field after = written(f, number);
    size_t used = first_written(f);
    after.group[first_written(&after)] = ERASED;
    after.group[used] = f->group[used];
    expect(&after, GORVLIME_ACCEPTED);
    return after;
}

/* The board turns cells from the end on. */
static struct field cut_off(const struct field *f, uint64_t number)
{
    struct field after = written(f, number);
    memcpy(after.group, f->group, f->groups - TURNED);
    expect(&after, GORVLIME_MISCOUNTED);
    return after;
}

static struct field field_before(const struct drive *d)
{
    struct field f = blank_field(d->form);
    for (size_t i = 0; d->earlier[i] != 0; i++)
        f = written(&f, d->earlier[i]);
    return f;
}

static struct field field_after(const struct drive *d)
{
    struct field f = field_before(d);
    if (d->event == TWO_WRITES)
        f = written(&f, d->number - 100);
    if (d->event == NOTHING)
        return f;
    if (d->event == NOT_ERASED)
        return not_erased(&f, d->number);
    if (d->event == CUT_OFF)
        return cut_off(&f, d->number);
    return written(&f, d->number);
}

struct dump {
    size_t count;
    uint8_t bytes[1 + FORMS * GORVLIME_LAYOUT_MOST + DRIVES * GORVLIME_RECORD_NEW_MOST];
};

#define REST_OF(dump) (dump)->bytes + (dump)->count, sizeof (dump)->bytes - (dump)->count

static void keep(struct dump *dump, struct gorvlime_stored stored)
{
    if (stored.refusal != GORVLIME_ACCEPTED)
        fail("an export that should have been accepted", stored.refusal);
    dump->count += stored.length;
}

static struct dump listing(void)
{
    struct dump dump = {.count = 1, .bytes = {FORMS}};
    for (int form = 0; form < FORMS; form++)
        keep(&dump, gorvlime_export_layout(shapes[form], REST_OF(&dump)));
    return dump;
}

static void add(struct dump *dump, const struct drive *d, struct field f)
{
    struct cells cells = cells_of(&f);
    keep(dump, gorvlime_export_record(d->serial, d->form, *f.shape, cells.bytes, cells.count, REST_OF(dump)));
}

static void store(const struct dump *dump, const char *folder, const char *file_name)
{
    char name[4096];
    int length = snprintf(name, sizeof name, "%s/%s", folder, file_name);
    FILE *file = length < (int)sizeof name ? fopen(name, "wb") : NULL;
    if (!file || fwrite(dump->bytes, 1, dump->count, file) != dump->count || fclose(file) != 0) {
        fprintf(stderr, "judge: cannot write %s\n", name);
        exit(1);
    }
}

int main(int count, char **words)
{
    struct dump before = listing(), after = listing();
    if (count != 2) {
        fputs("usage: judge FOLDER\n", stderr);
        return 2;
    }
    for (const struct drive *d = drives; d < drives + DRIVES; d++) {
        if (d->event != PUT_IN)
            add(&before, d, field_before(d));
        if (d->event != TAKEN_OUT)
            add(&after, d, field_after(d));
    }
    store(&before, words[1], "judge-before.dump");
    store(&after, words[1], "judge-after.dump");
    return 0;
}
