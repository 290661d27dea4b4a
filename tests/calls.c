/*
 * Calls every function of gorvlime.h with the values of document 01 and with inputs at and beyond each bound, and checks
 * every number of each answer and every lent byte. With GORVLIME defined it calls the archive, and else plain C.
 */
#include "chosen.h"
#include "chain.h"
#include "check.h"

#include <inttypes.h>
#include <stdio.h>
#include <stdlib.h>

/* Refusal 0 stands for the counts behind it; a refused layout has only zeros. */
static const struct {
    uint64_t m, t, v, g, refusal, h[16];
} layouts[] = {
    {2, 3, 4, 4, 0, {4, 3, 2}},
    {2, 3, 4, 3, 2, {0}},
    {2, 3, 4, 0, 2, {0}},
    {2, 3, 4, 256, 0, {4, 3, 2}},
    {2, 3, 4, 257, 1, {0}},
    {2, 3, 4, UINT64_MAX, 1, {0}},
    {2, 2, 2, 256, 0, {2, 1}},
    {2, 2, 2, 2, 0, {2, 1}},
    {2, 2, 2, 1, 2, {0}},
    {2, 2, 20, 5, 0, {5, 3}},
    {2, 2, 20, 4, 2, {0}},
    {3, 2, 2, 256, 0, {2, 1}},
    {4, 2, 2, 256, 0, {2, 1}},
    {2, 2, RANGE, 48, 2, {0}},
    {2, 2, RANGE, 49, 0, {49, 36}},
    {3, 2, RANGE, 256, 0, {31, 20}},
    {4, 2, RANGE, 256, 0, {25, 15}},
    {2, 10, RANGE, 139, 0, {139, 130, 120, 110, 99, 88, 76, 64, 51, 36}},
    {2, 10, RANGE, 138, 2, {0}},
    {2, 16, RANGE, 256, 0, {194, 186, 177, 168, 159, 150, 140, 130, 120, 110, 99, 88, 76, 64, 51, 36}},
    {3, 16, RANGE, 256, 0, {150, 143, 135, 127, 119, 111, 103, 95, 87, 79, 70, 61, 52, 42, 32, 20}},
    {4, 16, RANGE, 256, 0, {128, 121, 114, 107, 100, 93, 86, 79, 72, 65, 58, 50, 42, 34, 25, 15}},
    {4, 16, RANGE, 128, 0, {128, 121, 114, 107, 100, 93, 86, 79, 72, 65, 58, 50, 42, 34, 25, 15}},
    {4, 16, RANGE, 127, 2, {0}},
    /* Five digits in base 3 hold 242 numbers and not 243. */
    {2, 2, 242, 256, 0, {8, 5}},
    {2, 2, 243, 256, 0, {8, 6}},
    {2, 3, 242, 256, 0, {10, 8, 5}},
    {2, 3, 243, 256, 0, {11, 9, 6}},
    /* The sums of conditions b and c are exactly v, and then one too small. */
    {2, 2, 13, 256, 0, {4, 3}},
    {2, 2, 14, 256, 0, {5, 3}},
    {2, 2, 31188719289873967, 256, 0, {47, 35}},
    {2, 2, 31188719289873968, 256, 0, {48, 35}},
    {3, 2, 6088210309170046, 256, 0, {29, 19}},
    {3, 2, 6088210309170047, 256, 0, {30, 19}},
    {4, 2, 52210478954106586, 256, 0, {24, 15}},
    {4, 2, 52210478954106587, 256, 0, {25, 15}},
    {2, 3, 6, 256, 0, {4, 3, 2}},
    {2, 3, 7, 256, 0, {5, 4, 2}},
    {2, 3, 9822109837899200, 256, 0, {59, 48, 34}},
    {2, 3, 9822109837899201, 256, 0, {60, 49, 34}},
    {3, 3, 33617861385120438, 256, 0, {41, 31, 20}},
    {3, 3, 33617861385120439, 256, 0, {42, 32, 20}},
    {4, 3, 17634222241414254, 256, 0, {31, 23, 14}},
    {4, 3, 17634222241414255, 256, 0, {32, 24, 14}},
    {2, 2, RANGE + 1, 256, 1, {0}},
    {2, 2, UINT64_MAX, 256, 1, {0}},
    {2, 2, 1, 256, 1, {0}},
    {2, 2, 0, 256, 1, {0}},
    {1, 3, 4, 256, 1, {0}},
    {0, 3, 4, 256, 1, {0}},
    {5, 3, 4, 256, 1, {0}},
    {UINT64_MAX, 3, 4, 256, 1, {0}},
    {2, 1, 4, 256, 1, {0}},
    {2, 0, 4, 256, 1, {0}},
    {2, 17, 4, 256, 1, {0}},
    {2, UINT64_MAX, 4, 256, 1, {0}},
    /* Out of bounds in the low 32 bits only would be in bounds. */
    {((uint64_t)1 << 32) + 2, 3, 4, 256, 1, {0}},
    {2, ((uint64_t)1 << 32) + 3, 4, 256, 1, {0}},
    {2, 3, 4, ((uint64_t)1 << 32) + 4, 1, {0}},
    /* Bounds are tested before room. */
    {5, 3, 4, 0, 1, {0}},
};

static void check_layouts(void)
{
    for (size_t i = 0; i < sizeof layouts / sizeof layouts[0]; i++) {
        uint64_t m = layouts[i].m, t = layouts[i].t, v = layouts[i].v, g = layouts[i].g;
        calling("layout m %" PRIu64 " t %" PRIu64 " v %" PRIu64 " g %" PRIu64, m, t, v, g);
        struct gorvlime_counts c = CALL(layout)(SHAPE(m, t, v), g);
        same("refusal", c.refusal, layouts[i].refusal);
        for (unsigned j = 0; j < 16; j++)
            same("a count", c.h[j], layouts[i].h[j]);
    }
}

static const struct {
    uint64_t m, t, v;
    const char *cells;
    uint64_t refusal, generation, number, left, unerased;
} reads[] = {
    {2, 3, 4, "00", 0, 1, 0, 3, 0},
    {2, 3, 4, "03", 0, 1, 3, 2, 0},
    {2, 3, 4, "0B", 0, 2, 1, 1, 0},
    {2, 3, 4, "23", 0, 2, 3, 1, 0},
    {2, 3, 4, "43", 16, 2, 0, 0, 0},
    {2, 3, 4, "4F", 0, 3, 2, 0, 0},
    {2, 3, 4, "0F", 15, 2, 0, 0, 2},
    {2, 3, 4, "F0", 15, 2, 0, 0, 2},
    {2, 3, 4, "FF", 15, 3, 0, 0, 0},
    {2, 3, 4, "FD", 15, 3, 0, 0, 1},
    {2, 3, 4, "54", 15, 3, 0, 0, 4},
    {2, 3, 4, "50", 15, 2, 0, 0, 4},
    {2, 3, 4, "F6", 16, 3, 0, 0, 0},
    {2, 3, 4, "C0", 16, 1, 0, 0, 0},
    {2, 3, 4, "", 3, 0, 0, 0, 0},
    {2, 3, 4, "00 00", 3, 0, 0, 0, 0},
    {2, 2, 20, "00 40", 0, 1, 1, 1, 0},
    {2, 2, 20, "01 40", 0, 1, 16, 1, 0},
    {2, 2, 20, "02 40", 0, 1, 19, 1, 0},
    {2, 2, 20, "02 80", 16, 1, 0, 0, 0},
    {2, 2, 20, "FF C0", 15, 2, 0, 0, 0},
    {2, 2, 20, "C1 C0", 0, 2, 0, 0, 0},
    {2, 2, 20, "00 41", 3, 0, 0, 0, 0},
    {2, 2, 20, "00 60", 3, 0, 0, 0, 0},
    {2, 2, 20, "00", 3, 0, 0, 0, 0},
    {2, 2, 20, "00 00 00", 3, 0, 0, 0, 0},
    /* Groups of three wits go over the ends of bytes. */
    {3, 3, 100, "00 02 08", 0, 1, 99, 2, 0},
    {3, 3, 100, "00 4E F8", 0, 2, 50, 1, 0},
    {3, 3, 100, "03 0F 38", 0, 2, 99, 1, 0},
    {3, 3, 100, "00 FF F8", 0, 3, 0, 0, 0},
    {3, 3, 100, "00 00 01", 3, 0, 0, 0, 0},
    {4, 3, 1000, "00 0F 00 90", 0, 1, 999, 2, 0},
    {4, 3, 1000, "0B 0F 60 F0", 0, 2, 999, 1, 0},
    {4, 3, 1000, "4F 6F FA F0", 0, 3, 999, 0, 0},
    {4, 2, 2, "2F", 0, 2, 1, 0, 0},
    {1, 3, 4, "00", 1, 0, 0, 0, 0},
    {5, 3, 4, "00", 1, 0, 0, 0, 0},
    {2, 1, 4, "00", 1, 0, 0, 0, 0},
    {2, 17, 4, "00", 1, 0, 0, 0, 0},
    {2, 3, 1, "00", 1, 0, 0, 0, 0},
    {2, 3, RANGE + 1, "00", 1, 0, 0, 0, 0},
    {2, 3, RANGE, "00", 3, 0, 0, 0, 0},
    /* Bounds are tested before cells. */
    {5, 3, 4, "", 1, 0, 0, 0, 0},
};

static void check_reads(void)
{
    for (size_t i = 0; i < sizeof reads / sizeof reads[0]; i++) {
        struct lent cells = lend(reads[i].cells);
        uint64_t m = reads[i].m, t = reads[i].t, v = reads[i].v;
        calling("read m %" PRIu64 " t %" PRIu64 " v %" PRIu64 " cells %s", m, t, v, reads[i].cells);
        struct gorvlime_reading r = CALL(read)(SHAPE(m, t, v), LENT(cells));
        same("refusal", r.refusal, reads[i].refusal);
        same("generation", r.generation, reads[i].generation);
        same("number", r.number, reads[i].number);
        same("left", r.left, reads[i].left);
        same("unerased", r.unerased, reads[i].unerased);
        holds(&cells, reads[i].cells);
    }
}

/* A refused write leaves the cells as they were, so `after` is only given where they change. */
static const struct {
    uint64_t m, t, v;
    const char *cells;
    uint64_t number, refusal, generation, turned, unerased;
    const char *after;
} writes[] = {
    {2, 3, 4, "00", 3, 0, 1, 2, 0, "03"},
    {2, 3, 4, "03", 1, 0, 2, 1, 0, "0B"},
    {2, 3, 4, "0B", 2, 0, 3, 2, 0, "4F"},
    {2, 3, 4, "4F", 0, 5, 0, 0, 0, NULL},
    {2, 3, 4, "4F", 1, 5, 0, 0, 0, NULL},
    {2, 3, 4, "4F", 2, 5, 0, 0, 0, NULL},
    {2, 3, 4, "4F", 3, 5, 0, 0, 0, NULL},
    {2, 3, 4, "00", 0, 0, 1, 0, 0, NULL},
    {2, 3, 4, "43", 0, 16, 2, 0, 0, NULL},
    {2, 3, 4, "0F", 3, 15, 2, 0, 2, NULL},
    {2, 3, 4, "54", 0, 15, 3, 0, 4, NULL},
    {2, 3, 4, "FF", 3, 15, 3, 0, 0, NULL},
    {2, 3, 4, "F6", 3, 16, 3, 0, 0, NULL},
    {2, 2, 20, "00 00", 16, 0, 1, 2, 0, "01 40"},
    {2, 2, 20, "00 00", 19, 0, 1, 2, 0, "02 40"},
    {2, 2, 20, "00 40", 0, 0, 2, 4, 0, "C1 C0"},
    {2, 2, 20, "00 00", 20, 6, 0, 0, 0, NULL},
    {2, 2, 20, "00 00", UINT64_MAX, 6, 0, 0, 0, NULL},
    {2, 2, 20, "00 41", 0, 3, 0, 0, 0, NULL},
    {2, 2, 20, "02 80", 0, 16, 1, 0, 0, NULL},
    {3, 3, 100, "00 00 00", 99, 0, 1, 2, 0, "00 02 08"},
    {3, 3, 100, "00 02 08", 50, 0, 2, 7, 0, "00 4E F8"},
    {3, 3, 100, "00 02 08", 99, 0, 2, 7, 0, "03 0F 38"},
    {3, 3, 100, "00 4E F8", 0, 0, 3, 4, 0, "00 FF F8"},
    {4, 3, 1000, "00 00 00 00", 999, 0, 1, 6, 0, "00 0F 00 90"},
    {4, 3, 1000, "00 0F 00 90", 999, 0, 2, 7, 0, "0B 0F 60 F0"},
    {4, 3, 1000, "0B 0F 60 F0", 999, 0, 3, 8, 0, "4F 6F FA F0"},
    {4, 2, 2, "01", 1, 0, 2, 4, 0, "2F"},
    /* The order of the tests: 1, 3, 6, 15, 16, 5. */
    {5, 3, 4, "", 4, 1, 0, 0, 0, NULL},
    {2, 3, 4, "", 4, 3, 0, 0, 0, NULL},
    {2, 3, 4, "00 00", 4, 3, 0, 0, 0, NULL},
    {2, 3, 4, "0F", 4, 6, 0, 0, 0, NULL},
    {2, 3, 4, "43", 4, 6, 0, 0, 0, NULL},
    {2, 3, 4, "4F", 4, 6, 0, 0, 0, NULL},
    {2, 3, RANGE + 1, "00", 0, 1, 0, 0, 0, NULL},
    {2, 17, 4, "00", 0, 1, 0, 0, 0, NULL},
};

static void check_writes(void)
{
    for (size_t i = 0; i < sizeof writes / sizeof writes[0]; i++) {
        struct lent cells = lend(writes[i].cells);
        uint64_t m = writes[i].m, t = writes[i].t, v = writes[i].v, number = writes[i].number;
        calling("write m %" PRIu64 " t %" PRIu64 " v %" PRIu64 " cells %s number %" PRIu64, m, t, v, writes[i].cells, number);
        struct gorvlime_writing w = CALL(write)(SHAPE(m, t, v), LENT(cells), number);
        same("refusal", w.refusal, writes[i].refusal);
        same("generation", w.generation, writes[i].generation);
        same("turned", w.turned, writes[i].turned);
        same("unerased", w.unerased, writes[i].unerased);
        holds(&cells, writes[i].after != NULL ? writes[i].after : writes[i].cells);
    }
}

/* Small and large ranges at every m and t; no field is larger than the header says. */
static void check_chains(void)
{
    for (uint64_t m = 2; m <= 4; m++) {
        for (uint64_t t = 2; t <= 16; t++) {
            check_chain(SHAPE(m, t, 2), 1);
            check_chain(SHAPE(m, t, 1000), 517);
            check_chain(SHAPE(m, t, RANGE), 1);
            check_chain(SHAPE(m, t, RANGE), RANGE - 1);
        }
    }
}

/* The largest published field, ten times 2^56 - 1. */
static void check_published_field(void)
{
    static const uint64_t turned[10] = {14, 14, 20, 21, 22, 23, 24, 25, 28, 42};
    struct lent cells = lend("0000000000 0000000000 0000000000 0000000000 0000000000 0000000000 0000000000");
    for (unsigned i = 0; i < 10; i++) {
        calling("write %u of m 2 t 10 v 2^56", i + 1);
        same("turned", CALL(write)(SHAPE(2, 10, RANGE), LENT(cells), RANGE - 1).turned, turned[i]);
    }
    holds(&cells, "5FCFFAFF7E BE73EEFF3F FFFAFFFCF4 FFFFFB77FF FBD8FFFFFF DDFBFFFFF7 C7FFFC1FDC");
}

/* The word is the number of checks that are due. */
int main(int count, char **words)
{
    if (count != 2) {
        fputs("usage: calls CHECKS\n", stderr);
        return 2;
    }
    check_most();
    check_layouts();
    check_reads();
    check_writes();
    check_chains();
    check_published_field();
    check_forms();
    check_ranges();
    check_range_chains();
    check_unreadable();
    check_many_fields();
    check_judge();
    check_resume();
    check_cut_off();
    check_pairs();
    check_dump_calls();
    check_new_dump_calls();
    check_listed_ranges();
    check_moves();
    check_hex_calls();
    return done(atoi(words[1]));
}
