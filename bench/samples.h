/* What the cases of bench.c run over: fields with chains of writes, and dumps of them. */
#ifndef SAMPLES_H
#define SAMPLES_H

#include "plain.h"

enum {
    CHAINS = 8,
    DUMP = GORVLIME_DUMP_MOST,
    /* So many records have a serial of 3 bytes, and the others one of 2, which fills a dump to its last byte. */
    OLD_RECORDS = 1337, OLD_LONG_SERIALS = 23, NEW_RECORDS = 1680, NEW_LONG_SERIALS = 3,
    /* The first records of the old dump, in half of its bytes. */
    HALF_RECORDS = 668,
    TEXT = GORVLIME_HEX_LENGTH(DUMP),
};

/* A field, and chains of writes from blank cells to its last generation. */
struct sample {
    struct gorvlime_shape shape;
    size_t cells;
    uint64_t numbers[CHAINS][GORVLIME_GENERATIONS_MOST];
    uint8_t written[CHAINS][GORVLIME_GENERATIONS_MOST][GORVLIME_CELLS_MOST];   /* after each write of a chain */
};

/* The drives' field, with t 16 at every m, in form 1, with a shorter range at each write, and a field of four numbers. */
extern struct sample drives, widest_2, widest_3, widest_4, new_drives, shrinking, small;

/* Of the drives' fields. A walk starts at `first`. */
struct dump {
    unsigned records;
    size_t first, count;
    uint8_t bytes[DUMP];
};

extern struct dump old_dump, half_dump, new_dump, moved_dump, moved_half;

extern uint8_t hex_text[TEXT];   /* the old dump in HEX */

/* Each is made once; the dumps need the drives' chains. */
void prepare_chains(struct sample *s);

void prepare_dumps(void);

#endif
