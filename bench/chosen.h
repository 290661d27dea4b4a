/*
 * CALL(read) is gorvlime_read of the archive where GORVLIME is defined, and else plain_read. A shape begins as
 * ONE_RANGE(form, m, t, v), or in form 2 as RANGES(m, t, v_1, .., v_t); SHAPE(m, t, v) is one of form 0.
 */
#ifndef CHOSEN_H
#define CHOSEN_H

#include "plain.h"

#ifdef GORVLIME
#define CALL(name) gorvlime_##name
#else
#define CALL(name) plain_##name
#endif

#define ONE_RANGE(FORM, M, T, V) {.form = (FORM), .m = (M), .t = (T), .count = 1, .v = {(V)}}
#define RANGES(M, T, ...) {.form = 2, .m = (M), .t = (T), .count = (T), .v = {__VA_ARGS__}}
#define SHAPE(M, T, V) ((struct gorvlime_shape)ONE_RANGE(0, M, T, V))

#endif
