/* The calls of gorvlime.h on new dumps as one would write them in C. */
#include "plain_field.h"
#include "plain_records.h"

#include <string.h>

enum { MOST_LAYOUTS = 64, NUMBERS_BEFORE_CELLS = 3, NUMBERS_BEFORE_RANGES = 3 };

/* A layout up to its first range, and the offset of that in a new dump, which has all ranges there. */
struct listed {
    uint64_t form, m, t, v;
    size_t ranges;
};

/* The layouts of a dump in their order, and the offset behind them in a new one. */
struct list {
    size_t count, end;
    struct listed layouts[MOST_LAYOUTS];
};

struct new_record {
    uint64_t serial, layout, length;
    size_t start;
};

struct gorvlime_stored plain_export_layout(struct gorvlime_shape shape, uint8_t *out, size_t out_count)
{
    uint8_t listed[(NUMBERS_BEFORE_RANGES + MOST_GENERATIONS) * LONGEST_NUMBER];
    struct field f;
    plain_lay_out(&f, &shape);
    if (f.refusal != GORVLIME_ACCEPTED)
        return (struct gorvlime_stored){.refusal = f.refusal};
    size_t length = put_number(listed, shape.form);
    length += put_number(listed + length, shape.m);
    length += put_number(listed + length, shape.t);
    for (uint64_t i = 0; i < shape.count; i++)
        length += put_number(listed + length, shape.v[i]);
    if (out_count < length)
        return (struct gorvlime_stored){.refusal = GORVLIME_OUTPUT};
    memcpy(out, listed, length);
    return (struct gorvlime_stored){.length = length};
}

struct gorvlime_stored plain_export_record(uint64_t serial, uint64_t layout, struct gorvlime_shape shape,
                                           const uint8_t *cells, size_t cells_count, uint8_t *out, size_t out_count)
{
    uint8_t head[NUMBERS_BEFORE_CELLS * LONGEST_NUMBER];
    struct field f;
    if (serial > MOST_SERIAL)
        return (struct gorvlime_stored){.refusal = GORVLIME_SERIAL};
    if (layout >= MOST_LAYOUTS)
        return (struct gorvlime_stored){.refusal = GORVLIME_BOUNDS};
    plain_lay_out(&f, &shape);
    uint64_t refusal = plain_misfit(&f, cells, cells_count);
    if (refusal != GORVLIME_ACCEPTED)
        return (struct gorvlime_stored){.refusal = refusal};
    size_t length = put_number(head, serial);
    length += put_number(head + length, layout);
    length += put_number(head + length, cells_count);
    if (out_count < length + cells_count)
        return (struct gorvlime_stored){.refusal = GORVLIME_OUTPUT};
    memcpy(out, head, length);
    memcpy(out + length, cells, cells_count);
    return (struct gorvlime_stored){.length = length + cells_count};
}

/* False: malformed, or with a t that cannot say how many ranges follow. */
static int get_layout(const uint8_t *dump, size_t count, size_t *at, struct listed *l)
{
    uint64_t range;
    if (!get_number(dump, count, at, &l->form) || !get_number(dump, count, at, &l->m) || !get_number(dump, count, at, &l->t))
        return 0;
    if (l->form == RANGED && (l->t < FEWEST_GENERATIONS || l->t > MOST_GENERATIONS))
        return 0;
    l->ranges = *at;
    if (!get_number(dump, count, at, &l->v))
        return 0;
    for (uint64_t i = 1; i < ranges_due(l->form, l->t); i++)
        if (!get_number(dump, count, at, &range))
            return 0;
    return 1;
}

/* 0, 8 for a dump that is too long, or 7 for a broken list. */
static uint64_t get_list(const uint8_t *dump, size_t count, struct list *l)
{
    uint64_t layouts;
    l->end = 0;
    if (count > MOST_DUMP)
        return GORVLIME_TOO_LONG;
    if (!get_number(dump, count, &l->end, &layouts) || layouts > MOST_LAYOUTS)
        return GORVLIME_MALFORMED;
    for (l->count = 0; l->count < layouts; l->count++)
        if (!get_layout(dump, count, &l->end, &l->layouts[l->count]))
            return GORVLIME_MALFORMED;
    return GORVLIME_ACCEPTED;
}

/* A layout of the list with all its ranges, which are read once more. */
static struct gorvlime_shape shape_of(const uint8_t *dump, size_t count, const struct listed *l)
{
    struct gorvlime_shape shape = {.form = l->form, .m = l->m, .t = l->t, .count = ranges_due(l->form, l->t)};
    size_t at = l->ranges;
    for (uint64_t i = 0; i < shape.count; i++)
        get_number(dump, count, &at, &shape.v[i]);
    return shape;
}

/* The record at an offset below the dump's end. False: malformed. */
static int get_new_record(const uint8_t *dump, size_t count, size_t at, size_t layouts, struct new_record *r)
{
    if (!get_number(dump, count, &at, &r->serial) || !get_number(dump, count, &at, &r->layout) || r->layout >= layouts
        || !get_number(dump, count, &at, &r->length))
        return 0;
    r->start = at;
    return r->length <= count - at;
}

struct gorvlime_opened plain_open_new(const uint8_t *dump, size_t dump_count)
{
    struct list l;
    uint64_t refusal = get_list(dump, dump_count, &l);
    if (refusal != GORVLIME_ACCEPTED)
        return (struct gorvlime_opened){.refusal = refusal};
    return (struct gorvlime_opened){.layouts = l.count, .first = l.end};
}

struct gorvlime_listed plain_listed_shape(const uint8_t *dump, size_t dump_count, uint64_t number)
{
    struct list l;
    uint64_t refusal = get_list(dump, dump_count, &l);
    if (refusal == GORVLIME_ACCEPTED && number >= l.count)
        refusal = GORVLIME_BOUNDS;
    if (refusal != GORVLIME_ACCEPTED)
        return (struct gorvlime_listed){.refusal = refusal};
    return (struct gorvlime_listed){.shape = shape_of(dump, dump_count, &l.layouts[number])};
}

struct gorvlime_found_new plain_step_new(const uint8_t *dump, size_t dump_count, size_t at)
{
    struct gorvlime_found_new found = {0};
    struct new_record r;
    struct list l;
    struct field f;
    found.refusal = get_list(dump, dump_count, &l);
    if (found.refusal != GORVLIME_ACCEPTED || at >= dump_count)
        return found;
    if (!get_new_record(dump, dump_count, at, l.count, &r)) {
        found.refusal = GORVLIME_MALFORMED;
        found.offset = at;
        return found;
    }
    const struct listed *layout = &l.layouts[r.layout];
    struct gorvlime_shape shape = shape_of(dump, dump_count, layout);
    plain_lay_out(&f, &shape);
    struct gorvlime_reading reading = plain_read_cells(&f, dump + r.start, r.length);
    return (struct gorvlime_found_new){
        .records = 1, .serial = r.serial, .layout = r.layout,
        .form = layout->form, .m = layout->m, .t = layout->t, .v = layout->v,
        .start = r.start, .length = r.length, .next = r.start + r.length,
        .refused = reading.refusal, .generation = reading.generation, .number = reading.number, .left = reading.left,
        .unerased = reading.unerased,
    };
}

static void put_row(uint64_t *row, const struct new_record *r, const struct listed *layout,
                    const struct gorvlime_reading *reading)
{
    row[0] = r->serial;
    row[1] = r->layout;
    row[2] = layout->form;
    row[3] = layout->m;
    row[4] = layout->t;
    row[5] = layout->v;
    row[6] = r->start;
    row[7] = r->length;
    row[8] = reading->refusal;
    row[9] = reading->generation;
    row[10] = reading->number;
    row[11] = reading->left;
    row[12] = reading->unerased;
}

struct gorvlime_walked plain_walk_new(const uint8_t *dump, size_t dump_count, size_t at, uint64_t *rows,
                                      size_t rows_count)
{
    struct gorvlime_walked walked = {.next = at};
    uint64_t laid_out = MOST_LAYOUTS;   /* whose shape and field these are: at first no one's */
    struct gorvlime_shape shape;
    struct new_record r;
    struct list l;
    struct field f;
    uint64_t refusal = get_list(dump, dump_count, &l);
    if (refusal != GORVLIME_ACCEPTED)
        return (struct gorvlime_walked){.refusal = refusal};
    for (; rows_count >= GORVLIME_ROW_NEW; rows += GORVLIME_ROW_NEW, rows_count -= GORVLIME_ROW_NEW) {
        if (walked.next >= dump_count) {
            walked.ended = 1;
            break;
        }
        if (!get_new_record(dump, dump_count, walked.next, l.count, &r)) {
            walked.refusal = GORVLIME_MALFORMED;
            walked.offset = walked.next;
            break;
        }
        if (r.layout != laid_out) {
            shape = shape_of(dump, dump_count, &l.layouts[r.layout]);
            plain_lay_out(&f, &shape);
            laid_out = r.layout;
        }
        struct gorvlime_reading reading = plain_read_cells(&f, dump + r.start, r.length);
        put_row(rows, &r, &l.layouts[r.layout], &reading);
        walked.rows++;
        walked.next = r.start + r.length;
    }
    return walked;
}

static size_t number_length(uint64_t number)
{
    size_t length = 1;
    for (; number >= 0x80; number >>= 7)
        length++;
    return length;
}

/* The numbers that an old record has of its layout. */
static size_t layout_length(const struct listed *l)
{
    return number_length(l->m) + number_length(l->t) + number_length(l->v);
}

static size_t put_layout(uint8_t *out, const struct listed *l)
{
    size_t length = put_number(out, l->m);
    length += put_number(out + length, l->t);
    return length + put_number(out + length, l->v);
}

/* The place of an old record's layout in the list, at whose end it is put if it is not there; 64 where that is full. */
static size_t layout_of(struct list *l, const struct record *r)
{
    size_t i = 0;
    while (i < l->count && (l->layouts[i].m != r->m || l->layouts[i].t != r->t || l->layouts[i].v != r->v))
        i++;
    if (i == l->count && i < MOST_LAYOUTS)
        l->layouts[l->count++] = (struct listed){.m = r->m, .t = r->t, .v = r->v};
    return i;
}

static struct gorvlime_moved refuse_move(uint64_t refusal, size_t offset)
{
    return (struct gorvlime_moved){.refusal = refusal, .offset = offset};
}

/* Of a dump that has passed the other tests. */
static struct gorvlime_moved test_room(size_t length, size_t out_count)
{
    if (length > MOST_DUMP)
        return refuse_move(GORVLIME_TOO_LONG, 0);
    if (length > out_count)
        return refuse_move(GORVLIME_OUTPUT, 0);
    return (struct gorvlime_moved){.length = length};
}

/* Lists the layouts of an old dump and answers what the move will. */
static struct gorvlime_moved test_old(const uint8_t *dump, size_t dump_count, size_t out_count, struct list *l)
{
    size_t length = 1;   /* the count of layouts */
    int too_many = 0;
    struct record r;
    l->count = 0;
    if (dump_count > MOST_DUMP)
        return refuse_move(GORVLIME_TOO_LONG, 0);
    for (size_t at = 0; at < dump_count; at = r.start + r.length) {
        if (!get_record(dump, dump_count, at, &r))
            return refuse_move(GORVLIME_MALFORMED, at);
        too_many |= layout_of(l, &r) == MOST_LAYOUTS;
        length += number_length(r.serial) + 1 + number_length(r.length) + r.length;
    }
    if (too_many)
        return refuse_move(GORVLIME_LAYOUTS, 0);
    for (size_t i = 0; i < l->count; i++)
        length += 1 + layout_length(&l->layouts[i]);
    return test_room(length, out_count);
}

struct gorvlime_moved plain_move_to_new(const uint8_t *dump, size_t dump_count, uint8_t *out, size_t out_count)
{
    struct list l;
    struct record r;
    struct gorvlime_moved moved = test_old(dump, dump_count, out_count, &l);
    if (moved.refusal != GORVLIME_ACCEPTED)
        return moved;
    *out++ = l.count;
    for (size_t i = 0; i < l.count; i++) {
        *out++ = 0;   /* the form */
        out += put_layout(out, &l.layouts[i]);
    }
    for (size_t at = 0; at < dump_count; at = r.start + r.length) {
        get_record(dump, dump_count, at, &r);
        out += put_number(out, r.serial);
        *out++ = layout_of(&l, &r);
        out += put_number(out, r.length);
        memcpy(out, dump + r.start, r.length);
        out += r.length;
    }
    return moved;
}

static int has_another_form(const struct list *l)
{
    size_t i = 0;
    while (i < l->count && l->layouts[i].form == 0)
        i++;
    return i < l->count;
}

static struct gorvlime_moved test_new(const uint8_t *dump, size_t dump_count, size_t out_count, struct list *l)
{
    size_t length = 0;
    struct new_record r;
    uint64_t refusal = get_list(dump, dump_count, l);
    if (refusal != GORVLIME_ACCEPTED)
        return refuse_move(refusal, 0);
    for (size_t at = l->end; at < dump_count; at = r.start + r.length) {
        if (!get_new_record(dump, dump_count, at, l->count, &r))
            return refuse_move(GORVLIME_MALFORMED, at);
        length += number_length(r.serial) + layout_length(&l->layouts[r.layout]) + number_length(r.length) + r.length;
    }
    if (has_another_form(l))
        return refuse_move(GORVLIME_FORM, 0);
    return test_room(length, out_count);
}

struct gorvlime_moved plain_move_to_old(const uint8_t *dump, size_t dump_count, uint8_t *out, size_t out_count)
{
    struct list l;
    struct new_record r;
    struct gorvlime_moved moved = test_new(dump, dump_count, out_count, &l);
    if (moved.refusal != GORVLIME_ACCEPTED)
        return moved;
    for (size_t at = l.end; at < dump_count; at = r.start + r.length) {
        get_new_record(dump, dump_count, at, l.count, &r);
        out += put_number(out, r.serial);
        out += put_layout(out, &l.layouts[r.layout]);
        out += put_number(out, r.length);
        memcpy(out, dump + r.start, r.length);
        out += r.length;
    }
    return moved;
}
