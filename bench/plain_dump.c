/* The dump calls of gorvlime.h as one would write them in C. */
#include "plain_field.h"
#include "plain_records.h"

#include <string.h>

enum { NUMBERS_OF_A_RECORD = 5 };

struct gorvlime_stored plain_export(uint64_t serial, uint64_t m, uint64_t t, uint64_t v, const uint8_t *cells,
                                      size_t cells_count, uint8_t *out, size_t out_count)
{
    struct gorvlime_shape shape = shape_of_form_0(m, t, v);
    struct field f;
    uint8_t head[NUMBERS_OF_A_RECORD * LONGEST_NUMBER];
    if (serial > MOST_SERIAL)
        return (struct gorvlime_stored){.refusal = GORVLIME_SERIAL};
    plain_lay_out(&f, &shape);
    uint64_t refusal = plain_misfit(&f, cells, cells_count);
    if (refusal != GORVLIME_ACCEPTED)
        return (struct gorvlime_stored){.refusal = refusal};
    size_t length = put_number(head, serial);
    length += put_number(head + length, m);
    length += put_number(head + length, t);
    length += put_number(head + length, v);
    length += put_number(head + length, cells_count);
    if (out_count < length + cells_count)
        return (struct gorvlime_stored){.refusal = GORVLIME_OUTPUT};
    memcpy(out, head, length);
    memcpy(out + length, cells, cells_count);
    return (struct gorvlime_stored){.length = length + cells_count};
}

struct gorvlime_found plain_step(const uint8_t *dump, size_t dump_count, size_t at)
{
    struct gorvlime_found found = {0};
    struct record r;
    struct field f;
    if (dump_count > MOST_DUMP) {
        found.refusal = GORVLIME_TOO_LONG;
        return found;
    }
    if (at >= dump_count)
        return found;
    if (!get_record(dump, dump_count, at, &r)) {
        found.refusal = GORVLIME_MALFORMED;
        found.offset = at;
        return found;
    }
    struct gorvlime_shape shape = shape_of_form_0(r.m, r.t, r.v);
    plain_lay_out(&f, &shape);
    struct gorvlime_reading reading = plain_read_cells(&f, dump + r.start, r.length);
    return (struct gorvlime_found){
        .records = 1, .serial = r.serial, .m = r.m, .t = r.t, .v = r.v,
        .start = r.start, .length = r.length, .next = r.start + r.length,
        .refused = reading.refusal, .generation = reading.generation, .number = reading.number, .left = reading.left,
        .unerased = reading.unerased,
    };
}

static void put_row(uint64_t *row, const struct record *r, const struct gorvlime_reading *reading)
{
    row[0] = r->serial;
    row[1] = r->m;
    row[2] = r->t;
    row[3] = r->v;
    row[4] = r->start;
    row[5] = r->length;
    row[6] = reading->refusal;
    row[7] = reading->generation;
    row[8] = reading->number;
    row[9] = reading->left;
    row[10] = reading->unerased;
}

struct gorvlime_walked plain_walk(const uint8_t *dump, size_t dump_count, size_t at, uint64_t *rows, size_t rows_count)
{
    struct gorvlime_walked walked = {.next = at};
    struct gorvlime_shape kept = {.count = 1};   /* of the record before; at first a shape that is out of bounds */
    struct field f = {.refusal = GORVLIME_BOUNDS};
    struct record r;
    if (dump_count > MOST_DUMP)
        return (struct gorvlime_walked){.refusal = GORVLIME_TOO_LONG};
    for (; rows_count >= GORVLIME_ROW; rows += GORVLIME_ROW, rows_count -= GORVLIME_ROW) {
        if (walked.next >= dump_count) {
            walked.ended = 1;
            break;
        }
        if (!get_record(dump, dump_count, walked.next, &r)) {
            walked.refusal = GORVLIME_MALFORMED;
            walked.offset = walked.next;
            break;
        }
        if (r.m != kept.m || r.t != kept.t || r.v != kept.v[0]) {
            kept = shape_of_form_0(r.m, r.t, r.v);
            plain_lay_out(&f, &kept);
        }
        struct gorvlime_reading reading = plain_read_cells(&f, dump + r.start, r.length);
        put_row(rows, &r, &reading);
        walked.rows++;
        walked.next = r.start + r.length;
    }
    return walked;
}
