/*
 * Counters in write-once cells, as board firmware keeps them: size the cells, write one or many, read back, export, make a
 * new dump, tell why a field is unreadable, resume a write that was cut off, and take two fields as one.
 *
 *     make archive
 *     tools/cc examples/board.c target/staticlib/libgorvlime.a -o target/board
 *     tools/run-c target/board
 */
#include "gorvlime.h"

#include <inttypes.h>
#include <stdio.h>
#include <string.h>

struct drive {
    const char *name;
    struct gorvlime_shape shape;   /* what the field is like. It never changes: another shape reads other numbers */
    uint8_t cells[35];             /* write-once cells on a board, blank at first. The layout says how many bytes */
};

/* A new drive takes form 1, in which a blank field is not taken for a written 0. */
static struct drive new_drive = {
    .name = "new drive",
    .shape = {
        .form = 1,
        .m = 2,             /* wits in a group */
        .t = 10,            /* the field can be written ten times */
        .count = 1,         /* with one range for all ten; form 2 has one for each */
        .v = {1ull << 56},  /* the counter is below this */
    },
};

/* Drives in service stay with form 0, which is what a form left out means. */
static struct drive old_drive = {.name = "old drive", .shape = {.m = 2, .t = 10, .count = 1, .v = {1ull << 56}}};

/* Is the block of cells as large as the field? Ask once, when the board is designed or starts. */
static int is_right_size(const struct drive *d)
{
    struct gorvlime_counts counts = gorvlime_layout(d->shape, GORVLIME_GROUPS_MOST);
    if (counts.refusal != GORVLIME_ACCEPTED)
        return 0;
    uint64_t wits = d->shape.m * counts.h[0];
    printf("%s: the field takes %" PRIu64 " wits\n", d->name, wits);
    return sizeof d->cells == (wits + 7) / 8;
}

/* A refused write has stored nothing, so the last number is still there. */
static void write_counter(struct drive *d, uint64_t number)
{
    struct gorvlime_writing written = gorvlime_write(d->shape, d->cells, sizeof d->cells, number);
    if (written.refusal != GORVLIME_ACCEPTED) {
        printf("%s: %" PRIu64 " is refused with %" PRIu64 "\n", d->name, number, written.refusal);
        return;
    }
    printf("%s: write %" PRIu64 " is %" PRIu64 ", %" PRIu64 " wits turned\n", d->name, written.generation, number,
           written.turned);
}

/* 15 and 16 come with what the fitter needs; README.md tells what it points to. */
static void read_counter(const struct drive *d)
{
    struct gorvlime_reading reading = gorvlime_read(d->shape, d->cells, sizeof d->cells);
    switch (reading.refusal) {
    case GORVLIME_ACCEPTED:
        printf("%s: the counter is %" PRIu64 ", %" PRIu64 " writes left\n", d->name, reading.number, reading.left);
        break;
    case GORVLIME_BLANK:
        printf("%s: no number yet\n", d->name);
        break;
    case GORVLIME_MISCOUNTED:
        printf("%s: unreadable, 15 at generation %" PRIu64 " with %" PRIu64 " groups unerased\n", d->name,
               reading.generation, reading.unerased);
        break;
    case GORVLIME_BEYOND:
        printf("%s: unreadable, 16 at generation %" PRIu64 "\n", d->name, reading.generation);
        break;
    default:
        printf("%s: no reading, refusal %" PRIu64 "\n", d->name, reading.refusal);
    }
}

/* What a board leaves that turns cells from the front on and loses its supply halfway. */
static void cut_write_off(struct drive *d, uint64_t number)
{
    struct drive written = *d;
    gorvlime_write(written.shape, written.cells, sizeof written.cells, number);
    memcpy(d->cells, written.cells, sizeof d->cells / 2);
}

/* Takes cells that gorvlime_read refuses with 15 or 16, and no others. */
static void resume_counter(struct drive *d, uint64_t number)
{
    struct gorvlime_resumed resumed = gorvlime_resume(d->shape, d->cells, sizeof d->cells, number);
    if (resumed.refusal != GORVLIME_ACCEPTED) {
        printf("%s: %" PRIu64 " is not resumed, refusal %" PRIu64 "\n", d->name, number, resumed.refusal);
        return;
    }
    printf("%s: write %" PRIu64 " is %" PRIu64 ", resumed, %" PRIu64 " wits turned, groups erased:", d->name,
           resumed.generation, number, resumed.turned);
    for (unsigned j = 0; j < GORVLIME_GROUPS_MOST; j++)
        if (resumed.erased[j / 64] >> j % 64 & 1)
            printf(" %u", j);
    putchar('\n');
}

/*
 * After a loss of supply, for a field that was being written, with the number that the board still has. Any other number that
 * the cells read as may be the old one or one that was never sent.
 */
static void recover_counter(struct drive *d, uint64_t number)
{
    struct gorvlime_reading reading = gorvlime_read(d->shape, d->cells, sizeof d->cells);
    if (reading.refusal == GORVLIME_MISCOUNTED || reading.refusal == GORVLIME_BEYOND)
        resume_counter(d, number);
    else if (reading.refusal != GORVLIME_ACCEPTED || reading.number != number)
        write_counter(d, number);
}

/* Three new drives whose fields lie end to end. */
static uint8_t rack[3 * sizeof new_drive.cells];

/* One call for a quarter's numbers. It stops at the first field that is refused; those before it stay written. */
static void write_quarter(const uint64_t *numbers, size_t count)
{
    struct gorvlime_many many = gorvlime_write_many(new_drive.shape, rack, sizeof rack, numbers, count);
    for (uint64_t i = 0; i < many.written; i++)
        printf("rack: write %" PRIu16 " of drive %" PRIu64 " is %" PRIu64 ", %" PRIu16 " wits turned\n",
               many.generation[i], i, numbers[i], many.turned[i]);
    if (many.stopped)
        printf("rack: drive %" PRIu64 " is refused with %" PRIu64 "\n", many.field, many.refusal);
    else if (many.refusal != GORVLIME_ACCEPTED)
        printf("rack: no drive is written, refusal %" PRIu64 "\n", many.refusal);
}

/* A strip with room for a second field: together they take as many numbers as one after the other. */
static struct {
    struct gorvlime_pair pair;
    uint8_t first[13], second[13];
} strip = {.pair = {.form = 1, .m = 2, .t1 = 2, .v1 = 1ull << 56, .t2 = 2, .v2 = 1ull << 56}};

static void write_strip(uint64_t number)
{
    struct gorvlime_pair_writing written = gorvlime_write_pair(strip.pair, strip.first, sizeof strip.first, strip.second,
                                                               sizeof strip.second, number);
    if (written.refusal != GORVLIME_ACCEPTED)
        printf("strip: %" PRIu64 " is refused with %" PRIu64 "\n", number, written.refusal);
    else
        printf("strip: write %" PRIu64 " of field %" PRIu64 " makes it %" PRIu64 ", %" PRIu64 " wits turned\n",
               written.generation, written.field, number, written.turned);
}

static void read_strip(void)
{
    struct gorvlime_pair_reading reading = gorvlime_read_pair(strip.pair, strip.first, sizeof strip.first, strip.second,
                                                              sizeof strip.second);
    if (reading.refusal != GORVLIME_ACCEPTED)
        printf("strip: no reading, refusal %" PRIu64 "\n", reading.refusal);
    else
        printf("strip: the counter is %" PRIu64 ", %" PRIu64 " writes left\n", reading.number, reading.left);
}

/* A record says whose field it is, m, t, v and the cells. It has no place for the form, and is read as form 0. */
static void export_counter(const struct drive *d, uint64_t serial)
{
    uint8_t record[GORVLIME_RECORD_MOST];
    struct gorvlime_stored exported = gorvlime_export(serial, d->shape.m, d->shape.t, d->shape.v[0], d->cells,
                                                        sizeof d->cells, record, sizeof record);
    if (exported.refusal != GORVLIME_ACCEPTED) {
        printf("%s: no record, refusal %" PRIu64 "\n", d->name, exported.refusal);
        return;
    }
    for (uint64_t i = 0; i < exported.length; i++)
        printf("%02X%c", record[i], i + 1 < exported.length ? ' ' : '\n');
}

/* A new dump says each layout once and holds fields of every form. */
static struct {
    size_t count;
    /* The count of layouts, two of them with one range, and two records. */
    uint8_t bytes[1 + 2 * GORVLIME_LAYOUT_ONE_RANGE_MOST + 2 * GORVLIME_RECORD_NEW_MOST];
} dump;

#define REST_OF_DUMP dump.bytes + dump.count, sizeof dump.bytes - dump.count

/* What a refused call would have stored is 0 bytes long. */
static void keep(struct gorvlime_stored stored)
{
    dump.count += stored.length;
    if (stored.refusal != GORVLIME_ACCEPTED)
        printf("new dump: refusal %" PRIu64 "\n", stored.refusal);
}

/* The count of layouts, then the layouts, then records that tell their layout by its place from 0. */
static void make_dump(void)
{
    dump.bytes[dump.count++] = 2;
    keep(gorvlime_export_layout(new_drive.shape, REST_OF_DUMP));
    keep(gorvlime_export_layout(old_drive.shape, REST_OF_DUMP));
    keep(gorvlime_export_record(301, 0, new_drive.shape, new_drive.cells, sizeof new_drive.cells, REST_OF_DUMP));
    keep(gorvlime_export_record(300, 1, old_drive.shape, old_drive.cells, sizeof old_drive.cells, REST_OF_DUMP));
    printf("new dump: %zu bytes\n", dump.count);
}

/*
 * As a collector lists it. A row is serial, layout, form, m, t, v, start, length, refused, generation, number, left,
 * unerased.
 */
static void list_dump(void)
{
    uint64_t rows[2 * GORVLIME_ROW_NEW];
    struct gorvlime_opened opened = gorvlime_open_new(dump.bytes, dump.count);
    struct gorvlime_walked walked = gorvlime_walk_new(dump.bytes, dump.count, opened.first, rows,
                                                      sizeof rows / sizeof rows[0]);
    for (uint64_t i = 0; i < walked.rows; i++) {
        const uint64_t *row = rows + i * GORVLIME_ROW_NEW;
        if (row[8] != GORVLIME_ACCEPTED)
            printf("new dump: drive %" PRIu64 " is refused with %" PRIu64 "\n", row[0], row[8]);
        else
            printf("new dump: drive %" PRIu64 " of form %" PRIu64 " has %" PRIu64 ", %" PRIu64 " writes left\n", row[0],
                   row[2], row[10], row[11]);
    }
}

int main(void)
{
    if (!is_right_size(&new_drive) || !is_right_size(&old_drive))
        return 1;
    read_counter(&new_drive);
    write_counter(&new_drive, 0);
    read_counter(&new_drive);
    write_counter(&new_drive, 1000);
    write_counter(&new_drive, new_drive.shape.v[0]);
    read_counter(&new_drive);
    read_counter(&old_drive);
    write_counter(&old_drive, 1000);
    write_counter(&old_drive, 1001);
    write_quarter((const uint64_t[]){640, 0, 118204}, 3);
    write_quarter((const uint64_t[]){655, new_drive.shape.v[0], 119530}, 3);
    export_counter(&old_drive, 300);
    make_dump();
    list_dump();
    cut_write_off(&old_drive, 1002);
    read_counter(&old_drive);
    recover_counter(&old_drive, 1002);
    read_counter(&old_drive);
    for (uint64_t number = 500; number < 800; number += 100)
        write_strip(number);
    read_strip();
    write_strip(800);
    write_strip(900);
    return 0;
}
