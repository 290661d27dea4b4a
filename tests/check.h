/* Checks that are counted. A failed one prints a line that names the call. */
#ifndef CHECK_H
#define CHECK_H

#include "gorvlime.h"

#include <stddef.h>
#include <stdint.h>

/* Lent bytes stand between bytes of this value, which have to stay. */
enum { UNTOUCHED = 0xa5, MARGIN = 16, MOST_LENT = 160 };

struct lent {
    size_t count;
    uint8_t all[MARGIN + MOST_LENT + MARGIN];
};

#define LENT(lent) ((lent).all + MARGIN), (lent).count

/* Names the call that the checks after it are about, as printf does. */
void calling(const char *format, ...) __attribute__((format(printf, 1, 2)));

/* A shape for `calling`, in words that last until the next one is told. */
const char *told(struct gorvlime_shape shape);

/* The range of a generation, from 1. */
uint64_t range_at(const struct gorvlime_shape *shape, uint64_t generation);

void same(const char *what, uint64_t got, uint64_t expected);

/* Bytes as hex digits, with spaces for the eye. */
struct lent lend(const char *hex);

/* `count` bytes that are UNTOUCHED themselves. */
struct lent lend_room(size_t count);

/* The least bytes that hold so many wits, at most 32: the lowest bit is the last wit, those behind it are 0. */
struct lent lend_wits(size_t count, uint32_t wits);

/* The lent bytes are these now, the ones behind them up to the lent count are UNTOUCHED, and so are the margins. */
void holds(const struct lent *lent, const char *hex);

/* Prints how many checks were made; the program's exit status, which is 0 where none failed and as many were due. */
int done(unsigned due);

void check_most(void);

void check_forms(void);

void check_ranges(void);

void check_range_chains(void);

void check_listed_ranges(void);

void check_unreadable(void);

void check_many_fields(void);

void check_judge(void);

void check_resume(void);

void check_cut_off(void);

void check_pairs(void);

void check_dump_calls(void);

void check_new_dump_calls(void);

void check_moves(void);

void check_hex_calls(void);

#endif
