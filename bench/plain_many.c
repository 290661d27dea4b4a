/* Many fields of one layout, which is worked out once, with the field calls of plain.c. */
#include "plain_field.h"

/* What refuses all of it before any field is written. */
static uint64_t refusal_of_all(struct field *f, const struct gorvlime_shape *shape, size_t cells_count, size_t numbers_count)
{
    if (numbers_count > GORVLIME_MANY)
        return GORVLIME_NUMBERS;
    plain_lay_out(f, shape);
    if (f->refusal != GORVLIME_ACCEPTED)
        return f->refusal;
    return cells_count == numbers_count * bytes_of(f) ? GORVLIME_ACCEPTED : GORVLIME_CELLS;
}

struct gorvlime_many plain_write_many(struct gorvlime_shape shape, uint8_t *cells, size_t cells_count,
                                      const uint64_t *numbers, size_t numbers_count)
{
    struct gorvlime_many answer = {0};
    struct field f;
    answer.refusal = refusal_of_all(&f, &shape, cells_count, numbers_count);
    if (answer.refusal != GORVLIME_ACCEPTED)
        return answer;
    size_t count = bytes_of(&f);
    for (size_t i = 0; i < numbers_count; i++) {
        struct gorvlime_writing w = plain_write_cells(&f, cells + i * count, count, numbers[i]);
        if (w.refusal != GORVLIME_ACCEPTED) {
            answer.refusal = w.refusal;
            answer.stopped = 1;
            answer.field = i;
            answer.refused_generation = w.generation;
            answer.refused_unerased = w.unerased;
            return answer;
        }
        answer.generation[i] = (uint16_t)w.generation;
        answer.turned[i] = (uint16_t)w.turned;
        answer.written++;
    }
    return answer;
}
