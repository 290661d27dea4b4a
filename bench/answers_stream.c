#include "answers.h"

#include <inttypes.h>
#include <stdio.h>
#include <stdlib.h>
#include <string.h>

/* So that more can be asked for than a shape may have. */
enum { MOST_RANGES = 64 };

void give_up(const char *why)
{
    puts(why);
    exit(0);
}

uint64_t get_number(void)
{
    uint8_t bytes[8];
    uint64_t number = 0;
    if (fread(bytes, 1, sizeof bytes, stdin) != sizeof bytes)
        give_up("cut off");
    for (unsigned i = 8; i-- > 0; )
        number = number << 8 | bytes[i];
    return number;
}

size_t get_count(size_t most)
{
    uint64_t count = get_number();
    if (count > most)
        give_up("too long");
    return count;
}

size_t get_more_bytes(struct lent *lent)
{
    size_t count = get_count(MOST_BYTES - lent->count);
    if (fread(lent->bytes + lent->count, 1, count, stdin) != count)
        give_up("cut off");
    lent->count += count;
    return count;
}

void get_bytes(struct lent *lent)
{
    lent->count = 0;
    get_more_bytes(lent);
}

void put_numbers(const char *word, const uint64_t *numbers, size_t count)
{
    fputs(word, stdout);
    for (size_t i = 0; i < count; i++)
        printf(" %" PRIu64, numbers[i]);
}

void put_hex(const uint8_t *bytes, size_t count)
{
    static const char hex[] = "0123456789abcdef";
    if (count > 0)
        putchar(' ');
    for (size_t i = 0; i < count; i++) {
        putchar(hex[bytes[i] >> 4]);
        putchar(hex[bytes[i] & 15]);
    }
}

/* Ranges that a shape has no room for only count: the call has to refuse so many. What stands behind is not looked at. */
struct gorvlime_shape get_shape(void)
{
    struct gorvlime_shape shape;
    memset(shape.v, OUTPUT_FILL, sizeof shape.v);
    shape.form = get_number();
    shape.m = get_number();
    shape.t = get_number();
    shape.count = get_count(MOST_RANGES);
    for (size_t i = 0; i < shape.count; i++) {
        uint64_t range = get_number();
        if (i < GORVLIME_RANGES_MOST)
            shape.v[i] = range;
    }
    return shape;
}

void put_refusal(const char *word, uint64_t refusal, uint64_t generation, uint64_t unerased)
{
    uint64_t numbers[] = {refusal, generation, unerased};
    put_numbers(word, numbers, refusal == GORVLIME_MISCOUNTED ? 3 : refusal == GORVLIME_BEYOND ? 2 : 1);
}

void put_reply(const uint64_t *reply)
{
    if (reply[0] == 0)
        put_numbers("", reply, 4);
    else
        put_refusal("", reply[0], reply[1], reply[4]);
    putchar('\n');
}
