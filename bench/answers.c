/*
 * Answers a stream of calls on standard input, a line for each on standard output, as crates/answers/src/main.rt tells,
 * with larger limits, so that HEX texts of full length and moved dumps fit. With GORVLIME defined the archive answers,
 * else plain C.
 */
#include "answers.h"

#include <stdio.h>

enum { MOST_NUMBERS = 128 };

static void answer_layout(void)
{
    struct gorvlime_shape shape = get_shape();
    struct gorvlime_counts c = CALL(layout)(shape, get_number());
    put_numbers("layout", &c.refusal, 1);
    put_numbers("", c.h, c.refusal == 0 ? shape.t : 0);
    putchar('\n');
}

static void answer_read(struct lent *lent)
{
    struct gorvlime_shape shape = get_shape();
    get_bytes(lent);
    struct gorvlime_reading r = CALL(read)(shape, lent->bytes, lent->count);
    uint64_t reply[] = {r.refusal, r.generation, r.number, r.left, r.unerased};
    fputs("read", stdout);
    put_reply(reply);
}

static void answer_write(struct lent *lent)
{
    struct gorvlime_shape shape = get_shape();
    uint64_t number = get_number();
    get_bytes(lent);
    struct gorvlime_writing w = CALL(write)(shape, lent->bytes, lent->count, number);
    uint64_t numbers[] = {w.refusal, w.generation, w.turned};
    if (w.refusal == 0)
        put_numbers("write", numbers, 3);
    else
        put_refusal("write", w.refusal, w.generation, w.unerased);
    put_hex(lent->bytes, lent->count);
    putchar('\n');
}

/* What a refusal does not carry is 0, and so are the others. */
static int is_carried_whole(uint64_t refusal, uint64_t generation, uint64_t unerased, uint64_t others)
{
    if (refusal != GORVLIME_MISCOUNTED)
        others |= unerased;
    if (refusal != GORVLIME_MISCOUNTED && refusal != GORVLIME_BEYOND)
        others |= generation;
    return others == 0;
}

/* What the line does not tell: the counts say the same, and all else is 0. */
static int is_whole(const struct gorvlime_many *w, size_t count)
{
    size_t written = w->stopped ? w->field : w->refusal == 0 ? count : 0;
    uint64_t others = w->stopped ? w->stopped - 1 : w->field;
    for (size_t i = w->written; i < GORVLIME_MANY; i++)
        others |= w->generation[i] | w->turned[i];
    return w->written == written && written <= GORVLIME_MANY
        && is_carried_whole(w->refusal, w->refused_generation, w->refused_unerased, others);
}

static void put_many(const struct gorvlime_many *w)
{
    put_refusal("many", w->refusal, w->refused_generation, w->refused_unerased);
    if (w->stopped)
        put_numbers(" field", &w->field, 1);
    else if (w->refusal == 0)
        put_numbers("", &w->written, 1);
    for (size_t i = 0; i < w->written; i++) {
        uint64_t pair[] = {w->generation[i], w->turned[i]};
        put_numbers("", pair, 2);
    }
}

static void answer_write_many(struct lent *lent)
{
    uint64_t numbers[MOST_NUMBERS];
    struct gorvlime_shape shape = get_shape();
    size_t count = get_count(MOST_NUMBERS);
    for (size_t i = 0; i < count; i++)
        numbers[i] = get_number();
    get_bytes(lent);
    struct gorvlime_many w = CALL(write_many)(shape, lent->bytes, lent->count, numbers, count);
    if (is_whole(&w, count))
        put_many(&w);
    else
        fputs("many counts that differ", stdout);
    put_hex(lent->bytes, lent->count);
    putchar('\n');
}

/* What the line does not tell is 0. */
static int is_judged_whole(const struct gorvlime_judged *j)
{
    uint64_t others = j->refusal == 0 ? 0 : j->yes | j->number;
    if (j->yes == 0)
        others |= j->number;
    return j->yes <= 1 && is_carried_whole(j->refusal, j->generation, j->unerased, others);
}

static void answer_judge(struct lent *lent)
{
    struct gorvlime_shape shape = get_shape();
    get_bytes(lent);
    size_t before = lent->count, after = get_more_bytes(lent);
    struct gorvlime_judged j = CALL(judge)(shape, lent->bytes, before, lent->bytes + before, after);
    uint64_t numbers[] = {j.refusal, j.yes, j.number};
    if (!is_judged_whole(&j))
        fputs("judge numbers that should be 0", stdout);
    else if (j.refusal == 0)
        put_numbers("judge", numbers, j.yes ? 3 : 2);
    else
        put_refusal("judge", j.refusal, j.generation, j.unerased);
    putchar('\n');
}

/* The count is that of the groups listed, and refused all numbers are 0. */
static int is_resumed_whole(const struct gorvlime_resumed *r)
{
    uint64_t listed = 0, others = r->generation | r->turned | r->count;
    for (size_t j = 0; j < GORVLIME_GROUPS_MOST; j++)
        listed += r->erased[j / 64] >> j % 64 & 1;
    return listed == r->count && (r->refusal == 0 || others == 0);
}

static void put_resumed(const struct gorvlime_resumed *r)
{
    uint64_t numbers[] = {r->refusal, r->generation, r->turned, r->count};
    put_numbers("resume", numbers, r->refusal == 0 ? 4 : 1);
    for (uint64_t j = 0; j < GORVLIME_GROUPS_MOST; j++)
        put_numbers("", &j, r->erased[j / 64] >> j % 64 & 1);
}

static void answer_resume(struct lent *lent)
{
    struct gorvlime_shape shape = get_shape();
    uint64_t number = get_number();
    get_bytes(lent);
    struct gorvlime_resumed r = CALL(resume)(shape, lent->bytes, lent->count, number);
    if (is_resumed_whole(&r))
        put_resumed(&r);
    else
        fputs("resume numbers that differ", stdout);
    put_hex(lent->bytes, lent->count);
    putchar('\n');
}

static struct gorvlime_pair get_pair(void)
{
    struct gorvlime_pair pair;
    pair.form = get_number();
    pair.m = get_number();
    pair.t1 = get_number();
    pair.v1 = get_number();
    pair.t2 = get_number();
    pair.v2 = get_number();
    return pair;
}

static void answer_read_pair(struct lent *lent)
{
    struct gorvlime_pair pair = get_pair();
    get_bytes(lent);
    size_t first = lent->count, second = get_more_bytes(lent);
    struct gorvlime_pair_reading r = CALL(read_pair)(pair, lent->bytes, first, lent->bytes + first, second);
    uint64_t numbers[] = {r.refusal, r.number, r.left};
    if (!is_carried_whole(r.refusal, r.generation, r.unerased, r.refusal == 0 ? 0 : r.number | r.left))
        fputs("pair numbers that should be 0", stdout);
    else if (r.refusal == 0)
        put_numbers("pair", numbers, 3);
    else
        put_refusal("pair", r.refusal, r.generation, r.unerased);
    putchar('\n');
}

static void answer_write_pair(struct lent *lent)
{
    struct gorvlime_pair pair = get_pair();
    uint64_t number = get_number();
    get_bytes(lent);
    size_t first = lent->count, second = get_more_bytes(lent);
    struct gorvlime_pair_writing w = CALL(write_pair)(pair, lent->bytes, first, lent->bytes + first, second, number);
    uint64_t numbers[] = {w.refusal, w.field, w.generation, w.turned};
    if (w.refusal == 0 ? w.unerased != 0 : !is_carried_whole(w.refusal, w.generation, w.unerased, w.field | w.turned))
        fputs("pairwrite numbers that should be 0", stdout);
    else if (w.refusal == 0)
        put_numbers("pairwrite", numbers, 4);
    else
        put_refusal("pairwrite", w.refusal, w.generation, w.unerased);
    put_hex(lent->bytes, first);
    put_hex(lent->bytes + first, second);
    putchar('\n');
}

int main(void)
{
    static struct lent lent;
    for (int operation; (operation = getchar()) != EOF; ) {
        switch (operation) {
        case 1: answer_layout(); break;
        case 2: answer_read(&lent); break;
        case 3: answer_write(&lent); break;
        case 4: answer_export(&lent); break;
        case 5: answer_walk(&lent); break;
        case 6: answer_hex_export(&lent); break;
        case 7: answer_hex_import(&lent); break;
        case 8: answer_walk_new(&lent); break;
        case 9: answer_move_to_new(&lent); break;
        case 10: answer_move_to_old(&lent); break;
        case 11: answer_export_layout(); break;
        case 12: answer_export_record(&lent); break;
        case 13: answer_write_many(&lent); break;
        case 14: answer_judge(&lent); break;
        case 15: answer_resume(&lent); break;
        case 16: answer_read_pair(&lent); break;
        case 17: answer_write_pair(&lent); break;
        default: give_up("no such call");
        }
    }
    return 0;
}
