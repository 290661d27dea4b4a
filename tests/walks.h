/* What the checks of old and of new dumps share. */
#ifndef WALKS_H
#define WALKS_H

#include "gorvlime.h"

#define RANGE GORVLIME_RANGE_MOST

/* A number that no walk stores, to be found again behind the rows. */
enum { NO_ROW = 77 };

void same_walk(struct gorvlime_walked got, struct gorvlime_walked expected);

#endif
