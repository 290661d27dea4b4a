/* What gorvlime.h says of the most that there can be: each is reached, one more is refused, and less room is too little. */
#include "chosen.h"
#include "check.h"

#include <inttypes.h>
#include <stdio.h>
#include <string.h>

static void check_version(void)
{
    char words[32];
    snprintf(words, sizeof words, "%d.%d.%d", GORVLIME_VERSION_MAJOR, GORVLIME_VERSION_MINOR, GORVLIME_VERSION_PATCH);
    calling("version %s", GORVLIME_VERSION);
    same("its numbers are the same", strcmp(words, GORVLIME_VERSION) == 0, 1);
}

/* The largest shape of a form but for its m. */
static struct gorvlime_shape widest(uint64_t form, uint64_t m)
{
    struct gorvlime_shape shape = {.form = form, .m = m, .t = GORVLIME_GENERATIONS_MOST};
    shape.count = form == 2 ? GORVLIME_RANGES_MOST : 1;
    for (uint64_t i = 0; i < shape.count; i++)
        shape.v[i] = GORVLIME_RANGE_MOST;
    return shape;
}

static uint64_t bytes_of(struct gorvlime_shape shape)
{
    struct gorvlime_counts counts = CALL(layout)(shape, GORVLIME_GROUPS_MOST);
    calling("layout %s", told(shape));
    same("refusal", counts.refusal, 0);
    return (shape.m * counts.h[0] + 7) / 8;
}

/* Fewer generations and lower ranges take no more cells. */
static void check_cells(void)
{
    for (uint64_t form = 0; form <= 2; form++) {
        uint64_t most = 0;
        for (uint64_t m = 2; m <= 4; m++) {
            uint64_t bytes = bytes_of(widest(form, m));
            most = bytes > most ? bytes : most;
        }
        calling("the largest fields of form %" PRIu64, form);
        same("bytes of cells", most, GORVLIME_CELLS_MOST);
    }
}

/* Refused with 1, by the bound that is passed alone. */
static void out_of_bounds(struct gorvlime_shape shape, uint64_t g)
{
    calling("layout %s g %" PRIu64, told(shape), g);
    same("refusal", CALL(layout)(shape, g).refusal, GORVLIME_BOUNDS);
}

static void check_bounds(void)
{
    struct gorvlime_shape shape = widest(0, 2);
    out_of_bounds(shape, GORVLIME_GROUPS_MOST + 1);
    shape.t = GORVLIME_GENERATIONS_MOST + 1;
    out_of_bounds(shape, GORVLIME_GROUPS_MOST);
    shape = widest(2, 2);
    shape.v[GORVLIME_RANGES_MOST - 1]++;
    out_of_bounds(shape, GORVLIME_GROUPS_MOST);
    same("ranges and generations", GORVLIME_RANGES_MOST, GORVLIME_GENERATIONS_MOST);
    same("ranges that a shape has room for", sizeof shape.v / sizeof shape.v[0], GORVLIME_RANGES_MOST);
}

enum kind { OLD_RECORD, NEW_RECORD, LISTED_LAYOUT };

/* The export of a field with the most cells; `layout` is told in a new dump's record alone. */
static struct gorvlime_stored export_into(enum kind kind, struct gorvlime_shape s, uint64_t serial, uint64_t layout,
                                          struct lent *out)
{
    struct lent cells = lend_room(GORVLIME_CELLS_MOST);
    calling("export of kind %d, %s, serial %" PRIu64 ", layout %" PRIu64 ", into %zu", kind, told(s), serial, layout,
            out->count);
    switch (kind) {
    case OLD_RECORD: return CALL(export)(serial, s.m, s.t, s.v[0], LENT(cells), LENT(*out));
    case NEW_RECORD: return CALL(export_record)(serial, layout, s, LENT(cells), LENT(*out));
    default: return CALL(export_layout)(s, LENT(*out));
    }
}

/* The largest field of a form fills so many bytes to the last, and does not go into one less. */
static void check_export(enum kind kind, uint64_t form, size_t most)
{
    struct gorvlime_shape shape = widest(form, 4);
    uint64_t serial = GORVLIME_SERIAL_MOST, layout = GORVLIME_LAYOUTS_MOST - 1;
    struct lent out = lend_room(most), less = lend_room(most - 1);
    struct gorvlime_stored stored = export_into(kind, shape, serial, layout, &out);
    same("refusal", stored.refusal, 0);
    same("length", stored.length, most);
    stored = export_into(kind, shape, serial, layout, &less);
    same("refusal", stored.refusal, GORVLIME_OUTPUT);
    same("length", stored.length, 0);
    holds(&less, "");
}

static void check_exports(void)
{
    check_export(OLD_RECORD, 0, GORVLIME_RECORD_MOST);
    for (uint64_t form = 0; form <= 2; form++)
        check_export(NEW_RECORD, form, GORVLIME_RECORD_NEW_MOST);
    check_export(LISTED_LAYOUT, 0, GORVLIME_LAYOUT_ONE_RANGE_MOST);
    check_export(LISTED_LAYOUT, 1, GORVLIME_LAYOUT_ONE_RANGE_MOST);
    check_export(LISTED_LAYOUT, 2, GORVLIME_LAYOUT_MOST);
}

/* A serial or layout number that is one more is refused. */
static void check_numbers_of_records(void)
{
    struct gorvlime_shape shape = widest(0, 4);
    uint64_t serial = GORVLIME_SERIAL_MOST, layout = GORVLIME_LAYOUTS_MOST - 1;
    struct lent out = lend_room(GORVLIME_RECORD_MOST);
    same("refusal", export_into(OLD_RECORD, shape, serial + 1, layout, &out).refusal, GORVLIME_SERIAL);
    same("refusal", export_into(NEW_RECORD, shape, serial + 1, layout, &out).refusal, GORVLIME_SERIAL);
    same("refusal", export_into(NEW_RECORD, shape, serial, layout + 1, &out).refusal, GORVLIME_BOUNDS);
    holds(&out, "");
}

/* A new dump that lists one small layout so many times. */
static void check_list(uint8_t layouts, uint64_t refusal)
{
    uint8_t dump[1 + 4 * (GORVLIME_LAYOUTS_MOST + 1)] = {layouts};
    for (size_t i = 0; i < layouts; i++)
        memcpy(dump + 1 + 4 * i, (uint8_t[]){0, 2, 3, 4}, 4);
    calling("list of %d layouts", layouts);
    same("refusal", CALL(open_new)(dump, sizeof dump).refusal, refusal);
}

/* Dumps of all zeros: of the largest, step and list are accepted. */
static void check_dumps(void)
{
    static uint8_t dump[GORVLIME_DUMP_MOST + 1];
    calling("dumps of %zu and %zu zeros", sizeof dump - 1, sizeof dump);
    same("refusal of a step", CALL(step)(dump, sizeof dump - 1, 0).refusal, 0);
    same("refusal of a list", CALL(open_new)(dump, sizeof dump - 1).refusal, 0);
    same("refusal of a step", CALL(step)(dump, sizeof dump, 0).refusal, GORVLIME_TOO_LONG);
    same("refusal of a list", CALL(open_new)(dump, sizeof dump).refusal, GORVLIME_TOO_LONG);
}

/* That this is the length of the text, and that one byte more is refused, is checked with the HEX calls. */
static void check_hex(void)
{
    calling("HEX export of the most bytes");
    same("characters", GORVLIME_HEX_LENGTH(GORVLIME_HEX_BYTES_MOST), GORVLIME_HEX_MOST);
}

void check_most(void)
{
    check_version();
    check_cells();
    check_bounds();
    check_exports();
    check_numbers_of_records();
    check_list(GORVLIME_LAYOUTS_MOST, 0);
    check_list(GORVLIME_LAYOUTS_MOST + 1, GORVLIME_MALFORMED);
    check_dumps();
    check_hex();
}
