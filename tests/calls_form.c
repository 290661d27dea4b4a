/* Checks of fields of form 1, which tells blank cells from a written 0, and of forms that are none. */
#include "chosen.h"
#include "chain.h"
#include "check.h"

#include <inttypes.h>

#define BIT_32 ((uint64_t)1 << 32)

static const struct {
    uint64_t form, m, t, v, g, refusal, h[16];
} layouts[] = {
    /* v is the sum of condition b exactly: of form 0 the first list, of form 1 one group more. */
    {0, 2, 2, 13, 256, 0, {4, 3}},
    {1, 2, 2, 13, 256, 0, {5, 3}},
    {0, 2, 2, 211, 256, 0, {7, 5}},
    {1, 2, 2, 211, 256, 0, {8, 5}},
    {0, 2, 2, 277, 256, 0, {8, 6}},
    {1, 2, 2, 277, 256, 0, {9, 6}},
    {0, 3, 2, 22, 256, 0, {3, 2}},
    {1, 3, 2, 22, 256, 0, {4, 2}},
    {0, 4, 2, 46, 256, 0, {3, 2}},
    {1, 4, 2, 46, 256, 0, {4, 2}},
    {0, 2, 2, 31188719289873967, 256, 0, {47, 35}},
    {1, 2, 2, 31188719289873967, 256, 0, {48, 35}},
    {1, 3, 2, 6088210309170046, 256, 0, {30, 19}},
    {1, 4, 2, 52210478954106586, 256, 0, {25, 15}},
    /* One below and one above, the forms have the same list. */
    {0, 2, 2, 12, 256, 0, {4, 3}},
    {1, 2, 2, 12, 256, 0, {4, 3}},
    {0, 2, 2, 14, 256, 0, {5, 3}},
    {1, 2, 2, 14, 256, 0, {5, 3}},
    {1, 2, 2, 31188719289873966, 256, 0, {47, 35}},
    {1, 2, 3, 4, 256, 0, {4, 3, 2}},
    {1, 2, 10, RANGE, 256, 0, {139, 130, 120, 110, 99, 88, 76, 64, 51, 36}},
    {0, 2, 2, 13, 4, 0, {4, 3}},
    {1, 2, 2, 13, 4, 2, {0}},
    {1, 2, 2, 13, 5, 0, {5, 3}},
    {1, 2, 2, 13, 257, 1, {0}},
    {1, 2, 2, 1, 256, 1, {0}},
    {1, 2, 2, RANGE + 1, 256, 1, {0}},
    {3, 2, 2, 20, 256, 1, {0}},
    {4, 2, 2, 20, 256, 1, {0}},
    {255, 2, 2, 20, 256, 1, {0}},
    {256, 2, 2, 20, 256, 1, {0}},
    {BIT_32, 2, 2, 20, 256, 1, {0}},
    {BIT_32 + 1, 2, 2, 20, 256, 1, {0}},
    {UINT64_MAX, 2, 2, 20, 256, 1, {0}},
    /* The form is tested before room. */
    {3, 2, 2, 20, 0, 1, {0}},
};

static void check_layouts(void)
{
    for (size_t i = 0; i < sizeof layouts / sizeof layouts[0]; i++) {
        struct gorvlime_shape shape = ONE_RANGE(layouts[i].form, layouts[i].m, layouts[i].t, layouts[i].v);
        calling("layout %s g %" PRIu64, told(shape), layouts[i].g);
        struct gorvlime_counts c = CALL(layout)(shape, layouts[i].g);
        same("refusal", c.refusal, layouts[i].refusal);
        for (unsigned j = 0; j < 16; j++)
            same("a count", c.h[j], layouts[i].h[j]);
    }
}

static const struct {
    uint64_t form, m, t, v;
    const char *cells;
    uint64_t refusal, generation, number, left, unerased;
} reads[] = {
    {0, 2, 3, 4, "00", 0, 1, 0, 3, 0},
    {1, 2, 3, 4, "00", 11, 0, 0, 0, 0},
    {1, 2, 3, 4, "01", 0, 1, 0, 2, 0},
    {1, 2, 3, 4, "02", 0, 1, 1, 2, 0},
    {1, 2, 3, 4, "04", 0, 1, 3, 2, 0},
    {1, 2, 3, 4, "08", 16, 1, 0, 0, 0},
    {1, 2, 3, 4, "07", 0, 2, 0, 1, 0},
    {1, 2, 3, 4, "0F", 15, 2, 0, 0, 2},
    {1, 2, 3, 4, "1F", 0, 3, 0, 0, 0},
    {1, 2, 3, 4, "FF", 15, 3, 0, 0, 0},
    {0, 2, 2, 20, "02 80", 16, 1, 0, 0, 0},
    {1, 2, 2, 20, "02 80", 0, 1, 19, 1, 0},
    {1, 2, 2, 20, "02 C0", 16, 1, 0, 0, 0},
    /* A left-over bit and a wrong byte count are told before blank cells. */
    {1, 2, 2, 20, "00 00", 11, 0, 0, 0, 0},
    {1, 2, 2, 20, "00 01", 3, 0, 0, 0, 0},
    {1, 2, 2, 20, "00 20", 3, 0, 0, 0, 0},
    {1, 2, 2, 20, "00", 3, 0, 0, 0, 0},
    {1, 2, 2, 20, "00 00 00", 3, 0, 0, 0, 0},
    {1, 2, 2, 20, "", 3, 0, 0, 0, 0},
    /* Of form 0 these are the bytes of one group less. */
    {0, 2, 2, 13, "00", 0, 1, 0, 2, 0},
    {1, 2, 2, 13, "00", 3, 0, 0, 0, 0},
    {1, 2, 2, 13, "00 00", 11, 0, 0, 0, 0},
    {1, 1, 3, 4, "00", 1, 0, 0, 0, 0},
    {3, 2, 3, 4, "00", 1, 0, 0, 0, 0},
    {3, 2, 3, 4, "01", 1, 0, 0, 0, 0},
    {3, 2, 3, 4, "", 1, 0, 0, 0, 0},
    {257, 2, 3, 4, "01", 1, 0, 0, 0, 0},
    {BIT_32, 2, 3, 4, "00", 1, 0, 0, 0, 0},
    {BIT_32 + 1, 2, 3, 4, "01", 1, 0, 0, 0, 0},
    {UINT64_MAX, 2, 3, 4, "01", 1, 0, 0, 0, 0},
};

static void check_reads(void)
{
    for (size_t i = 0; i < sizeof reads / sizeof reads[0]; i++) {
        struct lent cells = lend(reads[i].cells);
        struct gorvlime_shape shape = ONE_RANGE(reads[i].form, reads[i].m, reads[i].t, reads[i].v);
        calling("read %s cells %s", told(shape), reads[i].cells);
        struct gorvlime_reading r = CALL(read)(shape, LENT(cells));
        same("refusal", r.refusal, reads[i].refusal);
        same("generation", r.generation, reads[i].generation);
        same("number", r.number, reads[i].number);
        same("left", r.left, reads[i].left);
        same("unerased", r.unerased, reads[i].unerased);
        holds(&cells, reads[i].cells);
    }
}

/* As in tests/calls.c, `after` is only given where the cells change. */
static const struct {
    uint64_t form, m, t, v;
    const char *cells;
    uint64_t number, refusal, generation, turned, unerased;
    const char *after;
} writes[] = {
    {0, 2, 3, 4, "00", 0, 0, 1, 0, 0, NULL},
    {1, 2, 3, 4, "00", 0, 0, 1, 1, 0, "01"},
    {1, 2, 3, 4, "00", 1, 0, 1, 1, 0, "02"},
    {1, 2, 3, 4, "00", 3, 0, 1, 1, 0, "04"},
    {1, 2, 3, 4, "01", 0, 0, 2, 2, 0, "07"},
    {1, 2, 3, 4, "07", 0, 0, 3, 2, 0, "1F"},
    {1, 2, 3, 4, "1F", 0, 5, 0, 0, 0, NULL},
    {1, 2, 3, 4, "08", 0, 16, 1, 0, 0, NULL},
    {1, 2, 3, 4, "0F", 0, 15, 2, 0, 2, NULL},
    {0, 2, 2, 20, "00 00", 19, 0, 1, 2, 0, "02 40"},
    {1, 2, 2, 20, "00 00", 18, 0, 1, 2, 0, "02 40"},
    {1, 2, 2, 20, "00 00", 19, 0, 1, 2, 0, "02 80"},
    {1, 2, 2, 20, "00 40", 0, 0, 2, 4, 0, "C1 C0"},
    /* The order of the tests: 1, 3, 6, 15, 16, 5. */
    {1, 2, 3, 4, "00", 4, 6, 0, 0, 0, NULL},
    {1, 2, 3, 4, "00", UINT64_MAX, 6, 0, 0, 0, NULL},
    {1, 2, 3, 4, "0F", 4, 6, 0, 0, 0, NULL},
    {1, 2, 3, 4, "08", 4, 6, 0, 0, 0, NULL},
    {1, 2, 3, 4, "1F", 4, 6, 0, 0, 0, NULL},
    {1, 2, 2, 20, "00 01", 0, 3, 0, 0, 0, NULL},
    {1, 2, 2, 20, "00 01", 20, 3, 0, 0, 0, NULL},
    {1, 2, 2, 20, "00", 20, 3, 0, 0, 0, NULL},
    {3, 2, 3, 4, "00", 0, 1, 0, 0, 0, NULL},
    {3, 2, 3, 4, "", 4, 1, 0, 0, 0, NULL},
    {256, 2, 3, 4, "00", 0, 1, 0, 0, 0, NULL},
    {BIT_32 + 1, 2, 3, 4, "00", 0, 1, 0, 0, 0, NULL},
    {UINT64_MAX, 2, 3, 4, "00", 0, 1, 0, 0, 0, NULL},
};

static void check_writes(void)
{
    for (size_t i = 0; i < sizeof writes / sizeof writes[0]; i++) {
        struct lent cells = lend(writes[i].cells);
        struct gorvlime_shape shape = ONE_RANGE(writes[i].form, writes[i].m, writes[i].t, writes[i].v);
        calling("write %s cells %s number %" PRIu64, told(shape), writes[i].cells, writes[i].number);
        struct gorvlime_writing w = CALL(write)(shape, LENT(cells), writes[i].number);
        same("refusal", w.refusal, writes[i].refusal);
        same("generation", w.generation, writes[i].generation);
        same("turned", w.turned, writes[i].turned);
        same("unerased", w.unerased, writes[i].unerased);
        holds(&cells, writes[i].after != NULL ? writes[i].after : writes[i].cells);
    }
}

/* A written 0 and the last number in range; the ranges 13, 22 and 46 are sums of condition b at t 2. */
static void check_each_range(uint64_t m, uint64_t t)
{
    static const uint64_t ranges[] = {2, 13, 22, 46, 1000, RANGE};
    for (size_t i = 0; i < sizeof ranges / sizeof ranges[0]; i++) {
        struct gorvlime_shape shape = ONE_RANGE(1, m, t, ranges[i]);
        check_chain(shape, 0);
        check_chain(shape, ranges[i] - 1);
    }
}

static void check_chains(void)
{
    for (uint64_t m = 2; m <= 4; m++)
        for (uint64_t t = 2; t <= 16; t++)
            check_each_range(m, t);
}

void check_forms(void)
{
    check_layouts();
    check_reads();
    check_writes();
    check_chains();
}
