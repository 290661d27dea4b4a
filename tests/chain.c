#include "chain.h"

#include "chosen.h"

#include <inttypes.h>

struct lent lend_blank(struct gorvlime_shape shape)
{
    struct lent cells = lend_room((shape.m * CALL(layout)(shape, 256).h[0] + 7) / 8);
    for (size_t i = 0; i < cells.count; i++)
        cells.all[MARGIN + i] = 0;
    return cells;
}

static unsigned ones_in(const struct lent *cells)
{
    unsigned ones = 0;
    for (size_t bit = 0; bit < 8 * cells->count; bit++)
        ones += cells->all[MARGIN + bit / 8] >> bit % 8 & 1;
    return ones;
}

/* Of form 0 the number is 0 and all writes are left; of the others there is none. */
static void check_blank(struct gorvlime_shape shape, const struct lent *cells)
{
    int is_number = shape.form == 0;
    calling("read blank cells of %s", told(shape));
    struct gorvlime_reading r = CALL(read)(shape, LENT(*cells));
    same("refusal", r.refusal, is_number ? 0 : 11);
    same("generation", r.generation, is_number ? 1 : 0);
    same("number", r.number, 0);
    same("left", r.left, is_number ? shape.t : 0);
    same("unerased", r.unerased, 0);
}

void check_numbers(struct gorvlime_shape shape, const uint64_t *numbers)
{
    struct lent cells = lend_blank(shape);
    uint64_t turned = 0, number = 0;
    check_blank(shape, &cells);
    for (uint64_t i = 1; i <= shape.t; i++) {
        number = numbers[i - 1];
        calling("write %" PRIu64 " of %s number %" PRIu64, i, told(shape), number);
        struct gorvlime_writing w = CALL(write)(shape, LENT(cells), number);
        struct gorvlime_reading r = CALL(read)(shape, LENT(cells));
        turned += w.turned;
        same("refusal", w.refusal, 0);
        same("generation", w.generation, i);
        same("some wit was turned", w.turned > 0, 1);
        same("wits turned so far", turned, ones_in(&cells));
        same("refusal of the reading", r.refusal, 0);
        same("generation read", r.generation, i);
        same("number read", r.number, number);
        same("left", r.left, shape.t - i);
        same("unerased", w.unerased + r.unerased, 0);
    }
    struct gorvlime_writing more = CALL(write)(shape, LENT(cells), number);
    same("refusal of one more", more.refusal, 5);
    same("its other numbers", more.generation + more.turned + more.unerased, 0);
}

void check_chain(struct gorvlime_shape shape, uint64_t number)
{
    uint64_t numbers[16];
    for (unsigned i = 0; i < 16; i++)
        numbers[i] = number;
    check_numbers(shape, numbers);
}
