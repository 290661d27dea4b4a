/* The calls of gorvlime.h in plain C, with the same answers. bench/bench.c measures the archive by them. */
#ifndef PLAIN_H
#define PLAIN_H

#include "gorvlime.h"

struct gorvlime_counts plain_layout(struct gorvlime_shape shape, uint64_t g);

struct gorvlime_reading plain_read(struct gorvlime_shape shape, const uint8_t *cells, size_t cells_count);

struct gorvlime_writing plain_write(struct gorvlime_shape shape, uint8_t *cells, size_t cells_count, uint64_t number);

struct gorvlime_many plain_write_many(struct gorvlime_shape shape, uint8_t *cells, size_t cells_count,
                                      const uint64_t *numbers, size_t numbers_count);

struct gorvlime_judged plain_judge(struct gorvlime_shape shape, const uint8_t *before, size_t before_count,
                                   const uint8_t *after, size_t after_count);

struct gorvlime_resumed plain_resume(struct gorvlime_shape shape, uint8_t *cells, size_t cells_count, uint64_t number);

struct gorvlime_pair_reading plain_read_pair(struct gorvlime_pair pair, const uint8_t *first, size_t first_count,
                                             const uint8_t *second, size_t second_count);

struct gorvlime_pair_writing plain_write_pair(struct gorvlime_pair pair, uint8_t *first, size_t first_count,
                                              uint8_t *second, size_t second_count, uint64_t number);

struct gorvlime_stored plain_export(uint64_t serial, uint64_t m, uint64_t t, uint64_t v, const uint8_t *cells,
                                      size_t cells_count, uint8_t *out, size_t out_count);

struct gorvlime_found plain_step(const uint8_t *dump, size_t dump_count, size_t at);

struct gorvlime_walked plain_walk(const uint8_t *dump, size_t dump_count, size_t at, uint64_t *rows, size_t rows_count);

struct gorvlime_stored plain_export_layout(struct gorvlime_shape shape, uint8_t *out, size_t out_count);

struct gorvlime_stored plain_export_record(uint64_t serial, uint64_t layout, struct gorvlime_shape shape,
                                           const uint8_t *cells, size_t cells_count, uint8_t *out, size_t out_count);

struct gorvlime_opened plain_open_new(const uint8_t *dump, size_t dump_count);

struct gorvlime_listed plain_listed_shape(const uint8_t *dump, size_t dump_count, uint64_t number);

struct gorvlime_found_new plain_step_new(const uint8_t *dump, size_t dump_count, size_t at);

struct gorvlime_walked plain_walk_new(const uint8_t *dump, size_t dump_count, size_t at, uint64_t *rows,
                                      size_t rows_count);

struct gorvlime_moved plain_move_to_new(const uint8_t *dump, size_t dump_count, uint8_t *out, size_t out_count);

struct gorvlime_moved plain_move_to_old(const uint8_t *dump, size_t dump_count, uint8_t *out, size_t out_count);

struct gorvlime_stored plain_hex_export(const uint8_t *bytes, size_t bytes_count, uint8_t *out, size_t out_count);

struct gorvlime_stored plain_hex_import(const uint8_t *text, size_t text_count, uint8_t *out, size_t out_count);

#endif
