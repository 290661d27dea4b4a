/* Two fields whose numbers add up to one, with the field calls of plain.c. */
#include "plain_field.h"

/* The fields of a pair. Where both have as many generations, the layout of the second is that of the first. */
struct pair {
    struct gorvlime_shape first, second;
    struct field fields[2];
    const struct field *of_second;
};

static struct gorvlime_shape shape_of(const struct gorvlime_pair *pair, uint64_t t, uint64_t v)
{
    return (struct gorvlime_shape){.form = pair->form, .m = pair->m, .t = t, .count = 1, .v = {v}};
}

/* With one range given, form 2 is out of bounds. */
static void lay_out_pair(struct pair *p, const struct gorvlime_pair *pair)
{
    p->first = shape_of(pair, pair->t1, pair->v1);
    plain_lay_out(&p->fields[0], &p->first);
    p->of_second = &p->fields[0];
    if (pair->t1 == pair->t2)
        return;
    p->second = shape_of(pair, pair->t2, pair->v2);
    plain_lay_out(&p->fields[1], &p->second);
    p->of_second = &p->fields[1];
}

/* For x below v and y at most v. */
static uint64_t sum_modulo(uint64_t x, uint64_t y, uint64_t v)
{
    return x + y < v ? x + y : x + y - v;
}

static uint64_t difference_modulo(uint64_t x, uint64_t y, uint64_t v)
{
    return sum_modulo(x, v - y, v);
}

static struct gorvlime_pair_reading reading_refused(const struct gorvlime_reading *r)
{
    return (struct gorvlime_pair_reading){.refusal = r->refusal, .generation = r->generation, .unerased = r->unerased};
}

struct gorvlime_pair_reading plain_read_pair(struct gorvlime_pair pair, const uint8_t *first, size_t first_count,
                                             const uint8_t *second, size_t second_count)
{
    struct pair p;
    if (pair.v1 != pair.v2)
        return (struct gorvlime_pair_reading){.refusal = GORVLIME_UNEQUAL};
    lay_out_pair(&p, &pair);
    struct gorvlime_reading front = plain_read_cells(&p.fields[0], first, first_count);
    if (front.refusal != GORVLIME_ACCEPTED)
        return reading_refused(&front);
    struct gorvlime_reading back = plain_look_at(p.of_second, second, second_count);
    if (back.refusal != GORVLIME_ACCEPTED)
        return reading_refused(&back);
    return (struct gorvlime_pair_reading){
        .number = sum_modulo(front.number, back.number, pair.v1),
        .left = front.left + pair.t2 - back.generation,
    };
}

static struct gorvlime_pair_writing writing_refused(const struct gorvlime_reading *r)
{
    return (struct gorvlime_pair_writing){.refusal = r->refusal, .generation = r->generation, .unerased = r->unerased};
}

static struct gorvlime_pair_writing written(uint64_t which, uint64_t generation, uint64_t turned)
{
    return (struct gorvlime_pair_writing){.field = which, .generation = generation, .turned = turned};
}

struct gorvlime_pair_writing plain_write_pair(struct gorvlime_pair pair, uint8_t *first, size_t first_count,
                                              uint8_t *second, size_t second_count, uint64_t number)
{
    struct pair p;
    if (pair.v1 != pair.v2)
        return (struct gorvlime_pair_writing){.refusal = GORVLIME_UNEQUAL};
    lay_out_pair(&p, &pair);
    struct gorvlime_reading front = {.refusal = plain_refusal_unread(&p.fields[0], first, first_count, number)};
    if (front.refusal == GORVLIME_ACCEPTED)
        front = plain_look_at(&p.fields[0], first, first_count);
    if (front.refusal != GORVLIME_ACCEPTED)
        return writing_refused(&front);
    struct gorvlime_reading back = plain_look_at(p.of_second, second, second_count);
    if (back.refusal != GORVLIME_ACCEPTED)
        return writing_refused(&back);
    uint64_t for_first = difference_modulo(number, back.number, pair.v1);
    uint64_t for_second = difference_modulo(number, front.number, pair.v1), i = front.generation + 1, j = back.generation + 1;
    if (i <= pair.t1)
        return written(0, i, plain_write_at(&p.fields[0], first, first_count, i, for_first));
    if (j <= pair.t2)
        return written(1, j, plain_write_at(p.of_second, second, second_count, j, for_second));
    return (struct gorvlime_pair_writing){.refusal = GORVLIME_SPENT};
}
