/* The HEX calls of gorvlime.h as one would write them in C. */
#include "plain.h"

#include <string.h>

enum {
    MOST_BYTES = 65536, DATA_ON_A_LINE = 16, TYPE_DATA = 0, TYPE_END = 1,
    /* A line without data, in characters: the colon, five bytes, the line feed. */
    BARE_LINE = 12,
    /* Above every byte, so that it shows in a byte, or in all bytes of a line joined by |. */
    NO_DIGIT = 256,
};

static const char end_line[BARE_LINE + 1] = ":00000001FF\n";

static uint8_t *put_byte(uint8_t *out, uint8_t byte)
{
    static const char digits[] = "0123456789ABCDEF";
    out[0] = digits[byte >> 4];
    out[1] = digits[byte & 15];
    return out + 2;
}

static uint8_t *put_data_line(uint8_t *out, const uint8_t *data, size_t count, size_t address)
{
    uint8_t sum = count + (address >> 8) + address;
    *out++ = ':';
    out = put_byte(out, count);
    out = put_byte(out, address >> 8);
    out = put_byte(out, address);
    out = put_byte(out, TYPE_DATA);
    for (size_t i = 0; i < count; i++) {
        out = put_byte(out, data[i]);
        sum += data[i];
    }
    out = put_byte(out, -sum);
    *out++ = '\n';
    return out;
}

struct gorvlime_stored plain_hex_export(const uint8_t *bytes, size_t bytes_count, uint8_t *out, size_t out_count)
{
    if (bytes_count > MOST_BYTES)
        return (struct gorvlime_stored){.refusal = GORVLIME_TOO_LONG};
    size_t lines = (bytes_count + DATA_ON_A_LINE - 1) / DATA_ON_A_LINE;
    size_t length = (lines + 1) * BARE_LINE + 2 * bytes_count;
    if (out_count < length)
        return (struct gorvlime_stored){.refusal = GORVLIME_OUTPUT};
    for (size_t at = 0; at < bytes_count; at += DATA_ON_A_LINE) {
        size_t left = bytes_count - at;
        out = put_data_line(out, bytes + at, left < DATA_ON_A_LINE ? left : DATA_ON_A_LINE, at);
    }
    memcpy(out, end_line, BARE_LINE);
    return (struct gorvlime_stored){.length = length};
}

/* NO_DIGIT for another character. */
static inline unsigned digit_of(uint8_t c)
{
    unsigned digit = c - '0', letter = (c | 0x20) - 'a';
    return digit < 10 ? digit : letter < 6 ? letter + 10 : NO_DIGIT;
}

/* NO_DIGIT or more where one of the two characters is none. */
static inline unsigned byte_of(const uint8_t *text)
{
    return digit_of(text[0]) << 4 | digit_of(text[1]);
}

/* A line of the right shape; `sum` is that of all its bytes. */
struct line {
    unsigned count, address, type;
    uint8_t sum;
    size_t length;   /* in characters, with the line end */
};

/* The line at the front of the text. False: its shape is wrong. */
static int get_line(const uint8_t *text, size_t text_count, struct line *l)
{
    if (text_count < BARE_LINE || text[0] != ':')
        return 0;
    unsigned count = byte_of(text + 1), high = byte_of(text + 3), low = byte_of(text + 5), type = byte_of(text + 7);
    if (count >= NO_DIGIT || text_count < BARE_LINE + 2 * count)
        return 0;
    unsigned all = high | low | type, sum = count + high + low + type;
    const uint8_t *end = text + 11 + 2 * count;
    for (const uint8_t *at = text + 9; at < end; at += 2) {
        unsigned byte = byte_of(at);
        all |= byte;
        sum += byte;
    }
    int returned = *end == '\r';
    if (all >= NO_DIGIT || text_count < BARE_LINE + 2 * count + returned || end[returned] != '\n')
        return 0;
    *l = (struct line){count, high << 8 | low, type, sum, BARE_LINE + 2 * count + returned};
    return 1;
}

/* The first refusal of a line behind `bytes` bytes of data. */
static unsigned test_line(const uint8_t *text, size_t text_count, size_t bytes, struct line *l)
{
    if (text_count == 0)
        return GORVLIME_NO_END;
    if (!get_line(text, text_count, l) || (l->type == TYPE_END && (l->count | l->address) != 0))
        return GORVLIME_LINE;
    if (l->sum != 0)
        return GORVLIME_SUM;
    if (l->type == TYPE_DATA && l->count > 0 && (l->address != bytes || bytes + l->count > MOST_BYTES))
        return GORVLIME_ADDRESS;
    int is_last = l->type == TYPE_END && l->length == text_count;
    return l->type == TYPE_DATA || is_last ? GORVLIME_ACCEPTED : GORVLIME_TYPE;
}

/* The count of bytes in a text, or why it is refused. */
static struct gorvlime_stored test_text(const uint8_t *text, size_t text_count)
{
    size_t bytes = 0, at = 0;
    struct line l;
    do {
        unsigned refusal = test_line(text + at, text_count - at, bytes, &l);
        if (refusal != GORVLIME_ACCEPTED)
            return (struct gorvlime_stored){.refusal = refusal};
        bytes += l.count;
        at += l.length;
    } while (l.type != TYPE_END);
    return (struct gorvlime_stored){.length = bytes};
}

/* The value of a character that is a digit: letters are 0x40 or more, and their low half starts at 1. */
static unsigned sure_digit_of(uint8_t c)
{
    return (c & 15) + (c >> 6) * 9;
}

static uint8_t sure_byte_of(const uint8_t *text)
{
    return sure_digit_of(text[0]) << 4 | sure_digit_of(text[1]);
}

/* Stores the data of a line that has passed the tests and tells where the next one starts. */
static const uint8_t *store_line(const uint8_t *text, unsigned count, uint8_t *out)
{
    text += 9;
    for (unsigned i = 0; i < count; i++, text += 2)
        out[i] = sure_byte_of(text);
    text += 2;
    return text + (*text == '\r' ? 2 : 1);
}

struct gorvlime_stored plain_hex_import(const uint8_t *text, size_t text_count, uint8_t *out, size_t out_count)
{
    struct gorvlime_stored imported = test_text(text, text_count);
    if (imported.refusal != GORVLIME_ACCEPTED)
        return imported;
    if (out_count < imported.length)
        return (struct gorvlime_stored){.refusal = GORVLIME_OUTPUT};
    for (size_t stored = 0; stored < imported.length; ) {
        unsigned count = sure_byte_of(text + 1);
        text = store_line(text, count, out + stored);
        stored += count;
    }
    return imported;
}
