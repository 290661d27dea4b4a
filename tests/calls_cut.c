/*
 * Writes that lose their supply: what is left is read and resumed with the number that was being written, on small fields
 * for every set of the wits that a write turns, on larger ones for every count of them in several orders.
 */
#include "chosen.h"
#include "chain.h"
#include "check.h"
#include "groups.h"
#include "small.h"

#include <inttypes.h>
#include <string.h>

/* A field, and how often its cut-off writes have come to what; `accepted` and `spent` are of the resumes. */
struct field {
    struct gorvlime_shape shape;
    struct gorvlime_counts counts;
    unsigned read, refused, accepted, spent;
};

static struct field field_of(struct gorvlime_shape shape)
{
    return (struct field){.shape = shape, .counts = CALL(layout)(shape, 256)};
}

static int is_erased(const struct field *f, const struct lent *cells, size_t j)
{
    return group_at(cells, f->shape.m, j) == (1u << f->shape.m) - 1;
}

static uint64_t zeros_in(const struct field *f, const struct lent *cells)
{
    uint64_t zeros = 0;
    for (size_t j = 0; j < f->counts.h[0]; j++)
        zeros += group_at(cells, f->shape.m, j) == 0;
    return zeros;
}

/* Where there is none it is t + 1. */
static uint64_t generation_found(const struct field *f, uint64_t zeros)
{
    uint64_t i = 2;
    while (i <= f->shape.t && f->counts.h[i - 1] > zeros)
        i++;
    return i;
}

/* No wit has gone back, and the turned count and the list of groups are those that the cells tell. */
static void check_turned(const struct field *f, const struct lent *before, const struct lent *after,
                         const struct gorvlime_resumed *r)
{
    uint64_t turned = 0, back = 0, listed = 0, wrong = 0;
    for (size_t wit = 0; wit < 8 * before->count; wit++) {
        turned += !wit_at(before, wit) && wit_at(after, wit);
        back += wit_at(before, wit) && !wit_at(after, wit);
    }
    for (size_t j = 0; j < GORVLIME_GROUPS_MOST; j++) {
        unsigned is_listed = r->erased[j / 64] >> j % 64 & 1;
        int is_due = j < f->counts.h[0] && is_erased(f, after, j) && !is_erased(f, before, j);
        listed += is_listed;
        wrong += is_listed != (unsigned)is_due;
    }
    same("turned", r->turned, turned);
    same("wits that went back", back, 0);
    same("count", r->count, listed);
    same("groups that are listed wrongly", wrong, 0);
}

/* The field is written on, with zeros and ones, until it is spent. */
static void check_writes_on(const struct field *f, struct lent cells, uint64_t generation)
{
    for (uint64_t j = 1; generation + j <= f->shape.t; j++) {
        struct gorvlime_writing w = CALL(write)(f->shape, LENT(cells), j % 2);
        same("a write behind it", w.refusal == 0 && w.generation == generation + j, 1);
        same("the number of a write behind it", CALL(read)(f->shape, LENT(cells)).number, j % 2);
    }
    same("refusal of one more", CALL(write)(f->shape, LENT(cells), 0).refusal, 5);
}

static void check_accepted(struct field *f, const struct lent *before, struct lent *after, uint64_t number,
                           const struct gorvlime_resumed *r)
{
    struct gorvlime_reading reading = CALL(read)(f->shape, LENT(*after));
    same("generation", r->generation, generation_found(f, zeros_in(f, before)));
    same("refusal of the reading", reading.refusal, 0);
    same("generation read", reading.generation, r->generation);
    same("number read", reading.number, number);
    same("left", reading.left, f->shape.t - r->generation);
    check_turned(f, before, after, r);
    check_writes_on(f, *after, r->generation);
    f->accepted++;
}

/* Cells without a reading take the number, or are refused with 5 where too few zero groups are left for any generation. */
static uint64_t refusal_due(const struct field *f, const struct lent *cells, int is_unreadable, uint64_t number)
{
    uint64_t i = generation_found(f, zeros_in(f, cells));
    if (!is_unreadable)
        return 17;
    if (i > f->shape.t)
        return 5;
    return number >= range_at(&f->shape, i) ? 6 : 0;
}

/* What a loss of supply left of a write of this number. Leaves what the resume makes of it. */
static void check_cut(struct field *f, struct lent *cells, uint64_t number)
{
    static const struct gorvlime_resumed none;
    struct lent before = *cells;
    struct gorvlime_reading reading = CALL(read)(f->shape, LENT(*cells));
    int is_blank = zeros_in(f, cells) == f->counts.h[0], is_unreadable = reading.refusal == 15 || reading.refusal == 16;
    same("another refusal", reading.refusal != 0 && !is_unreadable && !(is_blank && reading.refusal == 11), 0);
    struct gorvlime_resumed r = CALL(resume)(f->shape, LENT(*cells), number);
    same("refusal", r.refusal, refusal_due(f, &before, is_unreadable, number));
    f->read += reading.refusal == 0;
    f->refused += is_unreadable;
    f->spent += r.refusal == 5;
    if (r.refusal == 0) {
        check_accepted(f, &before, cells, number, &r);
        return;
    }
    r.refusal = 0;
    same("numbers of a refused one", memcmp(&r, &none, sizeof r) != 0, 0);
    same("lent bytes that were changed", memcmp(cells, &before, sizeof before) != 0, 0);
}

/* All four came about. */
static void check_kinds(const struct field *f)
{
    calling("cut-off writes of %s", told(f->shape));
    same("some read", f->read > 0, 1);
    same("some do not", f->refused > 0, 1);
    same("some are resumed", f->accepted > 0, 1);
    same("some are spent", f->spent > 0, 1);
}

/* Writes a number, or resumes with it where the cells have no reading; 0 where that is refused. */
static int put_number(const struct field *f, struct lent *cells, uint64_t number)
{
    uint64_t refusal = CALL(read)(f->shape, LENT(*cells)).refusal;
    if (refusal == 15 || refusal == 16)
        return CALL(resume)(f->shape, LENT(*cells), number).refusal == 0;
    return CALL(write)(f->shape, LENT(*cells), number).refusal == 0;
}

/* Every set of the wits that a write, or a resume, turns. What is left of it is reached too. */
static void check_sets(struct field *f, const struct small_field *small, unsigned before, uint64_t number, uint8_t *reached)
{
    struct lent cells = lend_wits(small->wits, before);
    if (!put_number(f, &cells, number))
        return;
    unsigned turned = state_of(small, &cells) ^ before, set = turned;
    do {
        calling("wits %x of the write of %" PRIu64 " on wits %x of %s", set, number, before, told(f->shape));
        cells = lend_wits(small->wits, before | set);
        check_cut(f, &cells, number);
        reached[before | set] = 1;
        set = (set - 1) & turned;
    } while (set != turned);
}

/*
 * From blank cells, all that writes and resumes lead to which may be cut off one after another. None turns a wit back, so
 * that a state is reached before its turn comes.
 */
static void check_small(struct gorvlime_shape shape)
{
    static struct small_field small;
    struct field f = field_of(shape);
    uint8_t reached[STATES] = {1};
    calling("cut-off writes of %s", told(shape));
    learn_field(&small, shape);
    for (unsigned state = 0; state < 1u << small.wits; state++)
        for (uint64_t number = 0; reached[state] && number < MOST_NUMBERS; number++)
            check_sets(&f, &small, state, number, reached);
    check_kinds(&f);
}

enum { ORDERS = 5, MOST_TURNED = 8 * GORVLIME_CELLS_MOST };

/*
 * The place of a wit in an order of turning: from the front, from the back, erased groups first, erased groups last, mixed.
 * 389 is prime and 512 is not below the count of wits, so that no two have one place.
 */
static size_t place_in(unsigned order, size_t wit, int is_erased)
{
    size_t places[ORDERS] = {
        wit, MOST_TURNED - 1 - wit, wit + MOST_TURNED * !is_erased, wit + MOST_TURNED * is_erased, wit * 389 % MOST_TURNED,
    };
    return places[order];
}

/* The wits that differ, in the order of their turning; answers how many they are. */
static size_t list_turned(const struct field *f, const struct lent *before, const struct lent *after, unsigned order,
                          size_t *wits)
{
    size_t count = 0, at[2 * MOST_TURNED];
    memset(at, 0, sizeof at);
    for (size_t wit = 0; wit < f->shape.m * f->counts.h[0]; wit++)
        if (wit_at(before, wit) != wit_at(after, wit))
            at[place_in(order, wit, is_erased(f, after, wit / f->shape.m))] = wit + 1;
    for (size_t i = 0; i < 2 * MOST_TURNED; i++)
        if (at[i] != 0)
            wits[count++] = at[i] - 1;
    return count;
}

/* A write is cut off before its first wit, behind each, and behind its last. */
static void check_prefixes(struct field *f, const struct lent *before, const struct lent *after, uint64_t number,
                           unsigned order)
{
    size_t wits[MOST_TURNED], count = list_turned(f, before, after, order, wits);
    struct lent cut = *before;
    for (size_t i = 0; i <= count; i++) {
        struct lent cells = cut;
        calling("%zu wits in order %u of the write of %" PRIu64 " on %s", i, order, number, told(f->shape));
        check_cut(f, &cells, number);
        if (i < count)
            turn_wit(&cut, wits[i]);
    }
    same("all wits are turned", memcmp(&cut, after, sizeof cut), 0);
}

static void check_large(struct gorvlime_shape shape)
{
    struct field f = field_of(shape);
    struct lent before = lend_blank(shape);
    for (uint64_t i = 1; i <= shape.t; i++) {
        uint64_t range = range_at(&shape, i), number = i % 2 ? range - 1 : 1 + i * 0x9e3779b97f4a7c15 % (range - 1);
        struct lent after = before;
        CALL(write)(shape, LENT(after), number);
        for (unsigned order = 0; order < ORDERS; order++)
            check_prefixes(&f, &before, &after, number, order);
        before = after;
    }
    check_kinds(&f);
}

void check_cut_off(void)
{
    static const struct gorvlime_shape small[] = {SMALL_FIELDS};
    static const struct gorvlime_shape large[] = {
        ONE_RANGE(0, 2, 10, RANGE), ONE_RANGE(1, 2, 10, RANGE), ONE_RANGE(1, 3, 16, RANGE), ONE_RANGE(0, 4, 16, RANGE),
        ONE_RANGE(0, 2, 16, RANGE), ONE_RANGE(0, 4, 5, 1000), RANGES(3, 3, 2, RANGE, 100),
        RANGES(2, 4, RANGE, RANGE >> 20, 1000, 3),
    };
    for (unsigned i = 0; i < sizeof small / sizeof small[0]; i++)
        check_small(small[i]);
    for (unsigned i = 0; i < sizeof large / sizeof large[0]; i++)
        check_large(large[i]);
}
