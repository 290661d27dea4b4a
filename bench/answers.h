/* A stream of calls on standard input, and lines on standard output; crates/answers/src/main.rt tells both. */
#ifndef ANSWERS_H
#define ANSWERS_H

#include "chosen.h"

enum { MOST_BYTES = 262144, OUTPUT_FILL = 0xa5 };

/* The byte strings of a call, end to end. */
struct lent {
    size_t count;
    uint8_t bytes[MOST_BYTES];
};

/* Ends the answers with a line. */
void give_up(const char *why);

uint64_t get_number(void);

/* A number that is `most` at most. */
size_t get_count(size_t most);

/* Takes a byte string behind those that the call has lent already, and answers its length. They share one limit. */
size_t get_more_bytes(struct lent *lent);

void get_bytes(struct lent *lent);

struct gorvlime_shape get_shape(void);

void put_numbers(const char *word, const uint64_t *numbers, size_t count);

void put_hex(const uint8_t *bytes, size_t count);

/* A refusal with what it carries. */
void put_refusal(const char *word, uint64_t refusal, uint64_t generation, uint64_t unerased);

/* Ends a line with the numbers of a reading, which a row and struct gorvlime_reading have in this order. */
void put_reply(const uint64_t *reply);

/* The answers of answers_dumps.c. */
void answer_export(struct lent *lent);

void answer_export_layout(void);

void answer_export_record(struct lent *lent);

void answer_walk(struct lent *dump);

void answer_walk_new(struct lent *dump);

void answer_move_to_new(struct lent *dump);

void answer_move_to_old(struct lent *dump);

void answer_hex_export(struct lent *lent);

void answer_hex_import(struct lent *lent);

#endif
