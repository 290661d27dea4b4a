#include "check.h"

#include <inttypes.h>
#include <stdarg.h>
#include <stdio.h>
#include <stdlib.h>
#include <string.h>

static unsigned checks, failures;
static char call[1024];

void calling(const char *format, ...)
{
    va_list words;
    va_start(words, format);
    vsnprintf(call, sizeof call, format, words);
    va_end(words);
}

const char *told(struct gorvlime_shape s)
{
    static char words[512];
    int length = snprintf(words, sizeof words, "form %" PRIu64 " m %" PRIu64 " t %" PRIu64 " v", s.form, s.m, s.t);
    for (uint64_t i = 0; i < s.count && i < GORVLIME_RANGES_MOST; i++)
        length += snprintf(words + length, sizeof words - length, " %" PRIu64, s.v[i]);
    return words;
}

uint64_t range_at(const struct gorvlime_shape *shape, uint64_t generation)
{
    return shape->v[shape->form == 2 ? generation - 1 : 0];
}

void same(const char *what, uint64_t got, uint64_t expected)
{
    checks++;
    if (got == expected)
        return;
    failures++;
    printf("%s: %s is %" PRIu64 ", expected %" PRIu64 "\n", call, what, got, expected);
}

struct lent lend_room(size_t count)
{
    struct lent lent = {.count = count};
    if (count > MOST_LENT) {
        fprintf(stderr, "no room for %zu bytes\n", count);
        exit(2);
    }
    memset(lent.all, UNTOUCHED, sizeof lent.all);
    return lent;
}

static int digit_of(char c)
{
    return c <= '9' ? c - '0' : c - 'A' + 10;
}

struct lent lend(const char *hex)
{
    struct lent lent = lend_room(0);
    for (; *hex != 0; hex++) {
        if (*hex == ' ')
            continue;
        lent.all[MARGIN + lent.count++] = 16 * digit_of(hex[0]) + digit_of(hex[1]);
        hex++;
    }
    return lent;
}

struct lent lend_wits(size_t count, uint32_t wits)
{
    struct lent cells = lend_room((count + 7) / 8);
    uint64_t bits = (uint64_t)wits << (8 * cells.count - count);
    for (size_t i = cells.count; i-- > 0; bits >>= 8)
        cells.all[MARGIN + i] = bits;
    return cells;
}

void holds(const struct lent *lent, const char *hex)
{
    struct lent expected = lend(hex);
    size_t different = 0;
    while (different < sizeof lent->all && lent->all[different] == expected.all[different])
        different++;
    checks++;
    if (different == sizeof lent->all)
        return;
    failures++;
    printf("%s: lent byte %d is %02X, expected %02X\n", call, (int)different - MARGIN, lent->all[different],
           expected.all[different]);
}

int done(unsigned due)
{
    printf("%u checks, %u failed\n", checks, failures);
    if (checks != due)
        printf("%u checks were due: some are lost, or the number in the script that runs them is old\n", due);
    return failures == 0 && checks == due ? 0 : 1;
}
