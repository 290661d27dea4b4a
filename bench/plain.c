/*
 * The field calls of gorvlime.h as one would write them by hand in C for a board: no heap, no table, cells in 64-bit words.
 * plain_layout.c tells why no number needs more than 64 bits.
 */
#include "plain_field.h"
#include "plain_words.h"

#include <string.h>

/* What the places of a generation are written with: b values each, at least `first` places. */
struct deal {
    unsigned places, b, first;
};

uint64_t plain_misfit(const struct field *f, const uint8_t *cells, size_t count)
{
    if (f->refusal != GORVLIME_ACCEPTED)
        return f->refusal;
    if (count != bytes_of(f))
        return GORVLIME_CELLS;
    unsigned left_over = 8 * count - wits_of(f);
    return cells[count - 1] & ((1u << left_over) - 1) ? GORVLIME_CELLS : GORVLIME_ACCEPTED;
}

/* Marks and counts the groups of cells that fit the field. The places are the unerased groups, as from generation 2 on. */
static void open_cells(const struct field *f, const uint8_t *cells, size_t count, struct words *w)
{
    uint64_t zeros = 0, unerased = 0;
    w->m = f->m;
    w->ones = (1u << f->m) - 1;
    w->bytes = f->m == 3 ? 6 : 8;
    w->count = (count + w->bytes - 1) / w->bytes;
    w->behind = 8 * w->bytes * w->count - f->m * f->h[0];
    w->low = (UINT64_MAX >> (64 - 8 * w->bytes)) / w->ones;
    for (unsigned i = 0; i < w->count; i++) {
        unsigned from = i * w->bytes;
        uint64_t word = i + 1 < w->count ? load_word(w, cells + from) : load_last(w, cells + from, count - from);
        w->word[i] = word;
        w->zero[i] = w->low ^ nonzero_groups(w, word);
        w->place[i] = w->low ^ erased_groups(w, word);
        zeros += ones_by_byte(w->zero[i]);
        unerased += ones_by_byte(w->place[i]);
    }
    w->zeros = sum_of_bytes(zeros);
    w->unerased = sum_of_bytes(unerased);
}

/* Stores the words and counts the wits that this turns from 0 to 1; none goes back. */
static unsigned store_cells(const struct words *w, uint8_t *cells, size_t count)
{
    unsigned turned = 0, last = (w->count - 1) * w->bytes;
    for (unsigned i = 0; i + 1 < w->count; i++) {
        uint8_t *to = cells + i * w->bytes;
        turned += ones_in(load_word(w, to) ^ w->word[i]);
        store_word(w, w->word[i], to);
    }
    turned += ones_in(load_last(w, cells + last, count - last) ^ w->word[w->count - 1]);
    store_last(w, w->word[w->count - 1], cells + last, count - last);
    return turned;
}

/* Two factors to a division. Where k is above n, one of the factors is 0. */
static uint64_t binomial(uint64_t n, unsigned k)
{
    uint64_t c = k % 2 == 0 ? 1 : n;
    for (uint64_t j = k % 2; j < k; j += 2)
        c = c * ((n - j) * (n - j - 1)) / ((j + 1) * (j + 2));
    return c;
}

/* How generation i (from 1) deals its numbers; the last generation is dealt as plain digits. */
static struct deal deal_of(const struct field *f, unsigned i)
{
    unsigned ones = (1u << f->m) - 1;
    if (i == 1)
        return (struct deal){.places = f->h[0], .b = ones, .first = f->first};
    return (struct deal){.places = f->h[i - 1], .b = ones - 1, .first = 1};
}

/* In generation 1 all ones are data, so that every group of the field is a place. */
static void make_all_places(struct words *w)
{
    for (unsigned i = 0; i < w->count; i++)
        w->place[i] = w->low;
    w->place[w->count - 1] = w->low >> w->behind << w->behind;
}

/* Rank and digits of the written places, from the right; power is b to their number. */
static uint64_t rank_and_digits(const struct words *w, unsigned b, uint64_t power)
{
    uint64_t rank = 0, digits = 0, weight = 1;
    unsigned passed = 0, written = 0;
    for (unsigned i = w->count; i-- > 0; ) {
        uint64_t word = w->word[i], place = w->place[i];
        for (uint64_t marks = place & ~w->zero[i]; marks != 0; marks &= marks - 1) {
            uint64_t below = (marks & -marks) - 1;
            rank += binomial(passed + ones_in(place & below), ++written);
            digits += ((word >> lowest_of(marks) & w->ones) - 1) * weight;
            weight *= b;
        }
        passed += ones_in(place);
    }
    return rank * power + digits;
}

/* The number of the pattern on the places. */
static uint64_t pattern_number(const struct words *w, struct deal d)
{
    uint64_t fewer = 0, choose = 1, power = 1;
    unsigned k = d.places - w->zeros;
    for (unsigned j = 0; j < k; j++) {
        fewer += choose * power;
        choose = choose * (d.places - j) / (j + 1);
        power *= d.b;
    }
    return fewer - d.first + rank_and_digits(w, d.b, power);
}

/* Sets the digits on the chosen places, the lowest on the rightmost. */
static void set_digits(struct words *w, const uint64_t *chosen, unsigned b, unsigned least, uint64_t digits)
{
    for (unsigned i = w->count; i-- > 0; ) {
        for (uint64_t marks = chosen[i]; marks != 0; marks &= marks - 1) {
            w->word[i] |= (least + digits % b) << lowest_of(marks);
            digits /= b;
        }
    }
}

/* Marks the choice of k among n zero groups that has this rank; `choose` is C(n, k). */
static void choose_places(const struct words *w, uint64_t n, uint64_t k, uint64_t choose, uint64_t rank, uint64_t *chosen)
{
    for (unsigned i = 0; i < w->count; i++) {
        uint64_t left = w->zero[i];
        chosen[i] = 0;
        while (k > 0 && left != 0) {
            uint64_t mark = (uint64_t)1 << highest_of(left);
            uint64_t without = choose * (n - k) / n;
            left ^= mark;
            n--;
            if (rank < without) {
                choose = without;
            } else {
                rank -= without;
                choose -= without;
                k--;
                chosen[i] |= mark;
            }
        }
    }
}

/* Sets the pattern of a number on the zero groups, which are the places. */
static void set_pattern(struct words *w, struct deal d, uint64_t number)
{
    uint64_t chosen[MOST_WORDS];
    uint64_t choose = 1, power = 1;
    unsigned k = 0;
    number += d.first;
    while (number >= choose * power) {
        number -= choose * power;
        choose = choose * (d.places - k) / (k + 1);
        power *= d.b;
        k++;
    }
    choose_places(w, d.places, k, choose, number / power, chosen);
    set_digits(w, chosen, d.b, 1, number % power);
}

/* The last generation: unerased groups are the digits of the number plus 1. */
static uint64_t digits_number(const struct words *w)
{
    uint64_t value = 0;
    for (unsigned i = 0; i < w->count; i++) {
        for (uint64_t marks = w->place[i]; marks != 0; ) {
            unsigned at = highest_of(marks);
            value = value * w->ones + (w->word[i] >> at & w->ones);
            marks ^= (uint64_t)1 << at;
        }
    }
    return value - 1;
}

static unsigned generation_of(const struct field *f, unsigned zeros)
{
    unsigned i = 1;
    while (i < f->t && zeros < f->h[i])
        i++;
    return i;
}

static int is_blank(const struct field *f, const struct words *w)
{
    return w->zeros == f->h[0];
}

/* Of cells that are not blank, or of form 0, where blank cells are generation 1. */
static struct gorvlime_reading read_words(const struct field *f, struct words *w)
{
    unsigned i = generation_of(f, w->zeros);
    struct deal d = deal_of(f, i);
    if (i == 1)
        make_all_places(w);
    else if (w->unerased != d.places)
        return (struct gorvlime_reading){.refusal = GORVLIME_MISCOUNTED, .generation = i, .unerased = w->unerased};
    uint64_t number = i == f->t ? digits_number(w) : pattern_number(w, d);
    if (number >= range_of(f, i))
        return (struct gorvlime_reading){.refusal = GORVLIME_BEYOND, .generation = i};
    return (struct gorvlime_reading){.generation = i, .number = number, .left = is_blank(f, w) ? f->t : f->t - i};
}

/* Opens the cells into words, if they fit the field, and reads them. */
static struct gorvlime_reading open_and_read(const struct field *f, const uint8_t *cells, size_t count, struct words *w)
{
    struct gorvlime_reading refused = {.refusal = plain_misfit(f, cells, count)};
    if (refused.refusal != GORVLIME_ACCEPTED)
        return refused;
    open_cells(f, cells, count, w);
    if (f->first > 0 && is_blank(f, w))
        return (struct gorvlime_reading){.refusal = GORVLIME_BLANK};
    return read_words(f, w);
}

struct gorvlime_reading plain_read_cells(const struct field *f, const uint8_t *cells, size_t count)
{
    struct words w;
    return open_and_read(f, cells, count, &w);
}

struct gorvlime_reading plain_read(struct gorvlime_shape shape, const uint8_t *cells, size_t cells_count)
{
    struct field f;
    plain_lay_out(&f, &shape);
    return plain_read_cells(&f, cells, cells_count);
}

/* Nonzero groups become all ones, and so do zero ones from the left until `kept` are left. */
static void erase(struct words *w, unsigned kept)
{
    unsigned spare = w->zeros - kept;
    for (unsigned i = 0; i < w->count; i++) {
        for (; spare > 0 && w->zero[i] != 0; spare--)
            w->zero[i] ^= (uint64_t)1 << highest_of(w->zero[i]);
        w->word[i] = (w->low ^ w->zero[i]) * w->ones;
    }
}

/* Writes generation i (from 1) on the words; what is erased before is the same for all. */
static void write_words(const struct field *f, struct words *w, unsigned i, uint64_t number)
{
    erase(w, f->h[i - 1]);
    if (i == f->t)
        set_digits(w, w->zero, w->ones, 0, number + 1);
    else
        set_pattern(w, deal_of(f, i), number);
}

/* The generation that a write takes, or why there is none. Blank cells need no reading: forms 1 and 2 have none for them. */
static struct gorvlime_writing next_generation(const struct field *f, struct words *w)
{
    if (is_blank(f, w))
        return (struct gorvlime_writing){.generation = 1};
    struct gorvlime_reading r = read_words(f, w);
    if (r.refusal != GORVLIME_ACCEPTED)
        return (struct gorvlime_writing){.refusal = r.refusal, .generation = r.generation, .unerased = r.unerased};
    if (r.generation == f->t)
        return (struct gorvlime_writing){.refusal = GORVLIME_SPENT};
    return (struct gorvlime_writing){.generation = r.generation + 1};
}

/* One range is tested before the cells are read; which of several counts is told by the generation, behind 5. */
uint64_t plain_refusal_unread(const struct field *f, const uint8_t *cells, size_t count, uint64_t number)
{
    uint64_t refusal = plain_misfit(f, cells, count);
    if (refusal == GORVLIME_ACCEPTED && !f->ranged && number >= range_of(f, 1))
        return GORVLIME_NUMBER;
    return refusal;
}

struct gorvlime_writing plain_write_cells(const struct field *f, uint8_t *cells, size_t count, uint64_t number)
{
    struct gorvlime_writing answer = {.refusal = plain_refusal_unread(f, cells, count, number)};
    struct words w;
    if (answer.refusal != GORVLIME_ACCEPTED)
        return answer;
    open_cells(f, cells, count, &w);
    answer = next_generation(f, &w);
    if (answer.refusal != GORVLIME_ACCEPTED)
        return answer;
    if (f->ranged && number >= range_of(f, answer.generation))
        return (struct gorvlime_writing){.refusal = GORVLIME_NUMBER};
    write_words(f, &w, answer.generation, number);
    answer.turned = store_cells(&w, cells, count);
    return answer;
}

unsigned plain_write_at(const struct field *f, uint8_t *cells, size_t count, unsigned i, uint64_t number)
{
    struct words w;
    open_cells(f, cells, count, &w);
    write_words(f, &w, i, number);
    return store_cells(&w, cells, count);
}

struct gorvlime_writing plain_write(struct gorvlime_shape shape, uint8_t *cells, size_t cells_count, uint64_t number)
{
    struct field f;
    plain_lay_out(&f, &shape);
    return plain_write_cells(&f, cells, cells_count, number);
}

/* What was there before: generation 0 where it was blank, which no form refuses. */
static struct gorvlime_reading open_before(const struct field *f, const uint8_t *cells, size_t count, struct words *w)
{
    struct gorvlime_reading blank = {.refusal = plain_misfit(f, cells, count)};
    if (blank.refusal != GORVLIME_ACCEPTED)
        return blank;
    open_cells(f, cells, count, w);
    return is_blank(f, w) ? blank : read_words(f, w);
}

struct gorvlime_reading plain_look_at(const struct field *f, const uint8_t *cells, size_t count)
{
    struct words w;
    return open_before(f, cells, count, &w);
}

/* No group that was nonzero is a place now: each is erased, so that no 1 became 0. In generation 1 none was nonzero. */
static int is_written_on_zeros(const struct words *before, const struct words *after)
{
    uint64_t used_again = 0;
    for (unsigned i = 0; i < after->count; i++)
        used_again |= ~before->zero[i] & after->place[i];
    return used_again == 0;
}

static struct gorvlime_judged judged_refused(struct gorvlime_reading r)
{
    return (struct gorvlime_judged){.refusal = r.refusal, .generation = r.generation, .unerased = r.unerased};
}

struct gorvlime_judged plain_judge(struct gorvlime_shape shape, const uint8_t *before, size_t before_count,
                                   const uint8_t *after, size_t after_count)
{
    struct field f;
    struct words was, is;
    plain_lay_out(&f, &shape);
    struct gorvlime_reading earlier = open_before(&f, before, before_count, &was);
    if (earlier.refusal != GORVLIME_ACCEPTED)
        return judged_refused(earlier);
    struct gorvlime_reading later = open_and_read(&f, after, after_count, &is);
    if (later.refusal != GORVLIME_ACCEPTED)
        return judged_refused(later);
    if (later.generation != earlier.generation + 1 || !is_written_on_zeros(&was, &is))
        return (struct gorvlime_judged){0};
    return (struct gorvlime_judged){.yes = 1, .number = later.number};
}

/* The generation that takes a number on words which do not read: the one behind that which the zero groups point to. */
static struct gorvlime_resumed found_generation(const struct field *f, struct words *w, uint64_t number)
{
    if (is_blank(f, w) || read_words(f, w).refusal == GORVLIME_ACCEPTED)
        return (struct gorvlime_resumed){.refusal = GORVLIME_READABLE};
    unsigned i = generation_of(f, w->zeros) + 1;
    if (i > f->t)
        return (struct gorvlime_resumed){.refusal = GORVLIME_SPENT};
    if (f->ranged && number >= range_of(f, i))
        return (struct gorvlime_resumed){.refusal = GORVLIME_NUMBER};
    return (struct gorvlime_resumed){.generation = i};
}

/* Adds the marked groups of word i, the leftmost of which is the highest. */
static void list_erased(const struct words *w, unsigned i, uint64_t marks, struct gorvlime_resumed *answer)
{
    unsigned groups = 8 * w->bytes / w->m;
    for (; marks != 0; marks &= marks - 1) {
        unsigned j = i * groups + groups - 1 - lowest_of(marks) / w->m;
        answer->erased[j / 64] |= (uint64_t)1 << j % 64;
        answer->count++;
    }
}

struct gorvlime_resumed plain_resume(struct gorvlime_shape shape, uint8_t *cells, size_t cells_count, uint64_t number)
{
    struct field f;
    struct words w;
    uint64_t unerased[MOST_WORDS];
    plain_lay_out(&f, &shape);
    struct gorvlime_resumed answer = {.refusal = plain_refusal_unread(&f, cells, cells_count, number)};
    if (answer.refusal != GORVLIME_ACCEPTED)
        return answer;
    open_cells(&f, cells, cells_count, &w);
    memcpy(unerased, w.place, w.count * sizeof unerased[0]);
    answer = found_generation(&f, &w, number);
    if (answer.refusal != GORVLIME_ACCEPTED)
        return answer;
    write_words(&f, &w, answer.generation, number);
    for (unsigned i = 0; i < w.count; i++)
        list_erased(&w, i, unerased[i] & erased_groups(&w, w.word[i]), &answer);
    answer.turned = store_cells(&w, cells, cells_count);
    return answer;
}
