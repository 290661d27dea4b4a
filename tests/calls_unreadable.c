/* Every buffer of small fields: what it is refused with, held to its groups, which are counted here one by one. */
#include "chosen.h"
#include "check.h"

#include <string.h>

/* A field of at most 16 wits, and its counts. */
struct field {
    struct gorvlime_shape shape;
    struct gorvlime_counts counts;
};

struct counted {
    uint64_t zeros, unerased;
};

static struct counted count_groups(const struct field *f, unsigned wits)
{
    struct counted c = {0};
    unsigned ones = (1u << f->shape.m) - 1;
    for (uint64_t i = 0; i < f->counts.h[0]; i++) {
        unsigned group = wits >> i * f->shape.m & ones;
        c.zeros += group == 0;
        c.unerased += group != ones;
    }
    return c;
}

/* The first generation such that the next one needs no more zero groups than there are, or else the last. */
static uint64_t generation_of(const struct field *f, uint64_t zeros)
{
    uint64_t i = 1;
    while (i < f->shape.t && zeros < f->counts.h[i])
        i++;
    return i;
}

/* A read tells 15 exactly where the counts differ, and else the number, which is in range, or 16. */
static struct gorvlime_reading check_reading(const struct field *f, struct counted c, const struct lent *cells)
{
    struct gorvlime_reading r = CALL(read)(f->shape, LENT(*cells));
    uint64_t generation = generation_of(f, c.zeros);
    int is_miscounted = generation > 1 && c.unerased != f->counts.h[generation - 1];
    same("refused with 15", r.refusal == 15, is_miscounted);
    same("refused with another but 16", r.refusal != 0 && r.refusal != 15 && r.refusal != 16, 0);
    same("generation", r.generation, generation);
    same("unerased", r.unerased, is_miscounted ? c.unerased : 0);
    same("number in range", r.number < range_at(&f->shape, generation), 1);
    same("number and left of a refused one", r.refusal != 0 ? r.number + r.left : 0, 0);
    return r;
}

/* A write is refused as the read is, and turns no wit; in form 2, which tests 6 last, whatever the number. */
static void check_refused_write(const struct field *f, const struct gorvlime_reading *r, const struct lent *cells)
{
    struct lent lent = *cells;
    struct gorvlime_writing w = CALL(write)(f->shape, LENT(lent), f->shape.form == 2 ? UINT64_MAX : 0);
    same("refusal of the write", w.refusal, r->refusal);
    same("its generation", w.generation, r->generation);
    same("its unerased", w.unerased, r->unerased);
    same("turned", w.turned, 0);
    same("lent bytes that were changed", memcmp(lent.all, cells->all, sizeof lent.all) != 0, 0);
}

/* But for blank cells, which have a number in form 0 and are refused with 11 in forms 1 and 2. */
static void check_field(const struct field *f)
{
    unsigned refused[17] = {0};
    size_t count = f->shape.m * f->counts.h[0];
    for (unsigned wits = 1; wits < 1u << count; wits++) {
        struct lent cells = lend_wits(count, wits);
        calling("%s wits %x", told(f->shape), wits);
        struct gorvlime_reading r = check_reading(f, count_groups(f, wits), &cells);
        if (r.refusal == 15 || r.refusal == 16) {
            check_refused_write(f, &r, &cells);
            refused[r.refusal]++;
        }
    }
    same("some are refused with 15", refused[15] > 0, 1);
    same("some are refused with 16", refused[16] > 0, 1);
}

void check_unreadable(void)
{
    static const struct gorvlime_shape shapes[] = {
        ONE_RANGE(0, 2, 3, 4), ONE_RANGE(1, 2, 3, 4), ONE_RANGE(0, 2, 2, 20), ONE_RANGE(1, 2, 2, 20),
        ONE_RANGE(0, 2, 5, 2), ONE_RANGE(0, 3, 2, 48), ONE_RANGE(1, 4, 3, 14),
        RANGES(2, 3, 20, 4, 2), RANGES(2, 3, 2, 4, 20), RANGES(2, 4, 2, 20, 2, 2), RANGES(3, 2, 300, 2),
        RANGES(4, 3, 2, 28, 2),
    };
    for (unsigned i = 0; i < sizeof shapes / sizeof shapes[0]; i++) {
        struct field f = {.shape = shapes[i], .counts = CALL(layout)(shapes[i], 256)};
        check_field(&f);
    }
}
