#include "samples.h"

#include <stdlib.h>
#include <string.h>

#define RANGE GORVLIME_RANGE_MOST

struct sample drives = {.shape = {.m = 2, .t = 10, .count = 1, .v = {RANGE}}, .cells = 35};
struct sample widest_2 = {.shape = {.m = 2, .t = 16, .count = 1, .v = {RANGE}}, .cells = 49};
struct sample widest_3 = {.shape = {.m = 3, .t = 16, .count = 1, .v = {RANGE}}, .cells = 57};
struct sample widest_4 = {.shape = {.m = 4, .t = 16, .count = 1, .v = {RANGE}}, .cells = 64};
struct sample new_drives = {.shape = {.form = 1, .m = 2, .t = 10, .count = 1, .v = {RANGE}}, .cells = 35};
struct sample shrinking = {
    .shape = {
        .form = 2, .m = 2, .t = 10, .count = 10,
        .v = {RANGE, RANGE >> 4, RANGE >> 8, RANGE >> 12, RANGE >> 16, RANGE >> 20, RANGE >> 24, RANGE >> 28, RANGE >> 32,
              RANGE >> 36},
    },
    .cells = 24,
};
struct sample small = {.shape = {.m = 2, .t = 3, .count = 1, .v = {4}}, .cells = 1};

struct dump old_dump, half_dump, new_dump, moved_dump, moved_half;
uint8_t hex_text[TEXT];

/* Numbers with no pattern to them, the same in every run. */
static uint64_t draw(void)
{
    static uint64_t state = 1;
    state = state * 6364136223846793005u + 1442695040888963407u;
    return state >> 8;
}

/* Numbers from 1 on, so that every write uses a generation up. */
static void write_chains(struct sample *s)
{
    for (unsigned i = 0; i < CHAINS; i++) {
        uint8_t cells[GORVLIME_CELLS_MOST] = {0};
        for (unsigned j = 0; j < s->shape.t; j++) {
            uint64_t range = s->shape.v[s->shape.count == 1 ? 0 : j];
            s->numbers[i][j] = 1 + draw() % (range - 1);
            if (plain_write(s->shape, cells, s->cells, s->numbers[i][j]).refusal != 0)
                abort();
            memcpy(s->written[i][j], cells, s->cells);
        }
    }
}

void prepare_chains(struct sample *s)
{
    if (s->numbers[0][0] == 0)
        write_chains(s);
}

/* Adds records that differ in serial and cells only; what stands between comes from one with a serial of one byte. */
static void add_records(struct dump *d, unsigned records, unsigned long_serials, const uint8_t *record, size_t length)
{
    size_t between = length - 1 - drives.cells;
    d->records = records;
    for (unsigned i = 0; i < records; i++) {
        uint64_t serial = i < long_serials ? 20000 + i : 128 + i;
        for (; serial >= 128; serial >>= 7)
            d->bytes[d->count++] = serial | 128;
        d->bytes[d->count++] = serial;
        memcpy(d->bytes + d->count, record + 1, between);
        memcpy(d->bytes + d->count + between, drives.written[i % CHAINS][i % drives.shape.t], drives.cells);
        d->count += between + drives.cells;
    }
}

static void make_moved(struct dump *moved, const struct dump *old)
{
    moved->records = old->records;
    moved->count = plain_move_to_new(old->bytes, old->count, moved->bytes, DUMP).length;
    moved->first = plain_open_new(moved->bytes, moved->count).first;
}

/* The dumps, and the text of the old one. */
static void make_dumps(void)
{
    uint8_t record[GORVLIME_RECORD_MOST];
    struct gorvlime_shape f = drives.shape;
    const uint8_t *cells = drives.written[0][0];
    size_t length = plain_export(0, f.m, f.t, f.v[0], cells, drives.cells, record, sizeof record).length;
    add_records(&old_dump, OLD_RECORDS, OLD_LONG_SERIALS, record, length);
    add_records(&half_dump, HALF_RECORDS, OLD_LONG_SERIALS, record, length);
    new_dump.bytes[0] = 1;
    new_dump.first = new_dump.count = 1 + plain_export_layout(f, new_dump.bytes + 1, DUMP - 1).length;
    length = plain_export_record(0, 0, f, cells, drives.cells, record, sizeof record).length;
    add_records(&new_dump, NEW_RECORDS, NEW_LONG_SERIALS, record, length);
    make_moved(&moved_dump, &old_dump);
    make_moved(&moved_half, &half_dump);
    if (old_dump.count != DUMP || new_dump.count != DUMP || moved_dump.count == 0
        || plain_hex_export(old_dump.bytes, DUMP, hex_text, TEXT).length != TEXT)
        abort();
}

void prepare_dumps(void)
{
    if (old_dump.count == 0)
        make_dumps();
}
