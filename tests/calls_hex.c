/* The HEX calls: export and import. */
#include "chosen.h"
#include "check.h"

#include <stdio.h>
#include <string.h>

/* A text of one byte a line, with CR LF, is the longest that has data on each line. */
enum { MOST_BYTES = GORVLIME_HEX_BYTES_MOST, MOST_TEXT = GORVLIME_HEX_MOST, LONG_TEXT = 15 * MOST_BYTES + 13 };

#define END ":00000001FF\n"

static uint8_t bytes[MOST_BYTES + 1], back[MOST_BYTES + MARGIN], text[LONG_TEXT + MARGIN];
static char due[MOST_TEXT + 1];

static struct lent lend_text(const char *characters)
{
    struct lent lent = lend_room(strlen(characters));
    memcpy(lent.all + MARGIN, characters, lent.count);
    return lent;
}

/* The characters are lent now, and all behind and around them is as lend_room left it. */
static void holds_text(const struct lent *lent, const char *characters)
{
    struct lent expected = lend_text(characters);
    same("the lent bytes are as due", memcmp(lent->all, expected.all, sizeof lent->all) == 0, 1);
}

/* `out` is the text; the lent output has `room` bytes, and those behind the text stay. */
static const struct {
    const char *bytes;
    size_t room;
    uint64_t refusal, length;
    const char *out;
} exports[] = {
    {"", 12, 0, 12, END},
    {"", 13, 0, 12, END},
    {"", 11, 9, 0, ""},
    {"", 0, 9, 0, ""},
    {"00 01 02 03 04 05 06 07 08 09 0A 0B 0C 0D 0E 0F 10", 100, 0, 70,
     ":10000000000102030405060708090A0B0C0D0E0F78\n:0100100010DF\n" END},
    {"00 01 02 03 04 05 06 07 08 09 0A 0B 0C 0D 0E 0F", 56, 0, 56, ":10000000000102030405060708090A0B0C0D0E0F78\n" END},
    {"4F", 26, 0, 26, ":010000004FB0\n" END},
    {"4F", 128, 0, 26, ":010000004FB0\n" END},
    {"4F", 25, 9, 0, ""},
    {"FF", 26, 0, 26, ":01000000FF00\n" END},
};

static void check_exports(void)
{
    for (size_t i = 0; i < sizeof exports / sizeof exports[0]; i++) {
        struct lent given = lend(exports[i].bytes), out = lend_room(exports[i].room);
        calling("HEX export of %s into %zu", exports[i].bytes, exports[i].room);
        struct gorvlime_stored e = CALL(hex_export)(LENT(given), LENT(out));
        same("refusal", e.refusal, exports[i].refusal);
        same("length", e.length, exports[i].length);
        holds_text(&out, exports[i].out);
        holds(&given, exports[i].bytes);
    }
}

static const struct {
    const char *text;
    size_t room;
    uint64_t refusal, length;
    const char *out;
} imports[] = {
    {":0100000001FE\n:020001000203F8\n" END, 128, 0, 3, "01 02 03"},
    {":0100000001FE\n:020001000203F8\n" END, 3, 0, 3, "01 02 03"},
    {":0100000001FE\r\n:020001000203f8\n:00000001fF\r\n", 4, 0, 3, "01 02 03"},
    {END, 128, 0, 0, ""},
    {END, 0, 0, 0, ""},
    /* The line end belongs to the shape, of the end line too. */
    {":00000001FF\r", 128, 20, 0, ""},
    {":00000001FF", 128, 20, 0, ""},
    {":010000004FB0\n:00000001FF", 128, 20, 0, ""},
    {":010000004FB0", 128, 20, 0, ""},
    {":00000001FF\r\r\n", 128, 20, 0, ""},
    {":00000101FE\n", 128, 20, 0, ""},
    {":0100000141BD\n", 128, 20, 0, ""},
    {":0100000141BE\n", 128, 20, 0, ""},
    {"\n" END, 128, 20, 0, ""},
    {"\r\n" END, 128, 20, 0, ""},
    {" " END, 128, 20, 0, ""},
    {":00000001FF \n", 128, 20, 0, ""},
    {":0000000 1FF\n", 128, 20, 0, ""},
    {":00000001F\n", 128, 20, 0, ""},
    /* What stands beside the digits and the letters in ASCII. */
    {":0000000/FF\n", 128, 20, 0, ""},
    {":0000000:F6\n", 128, 20, 0, ""},
    {":00000001F@\n", 128, 20, 0, ""},
    {":00000001FG\n", 128, 20, 0, ""},
    {":00000001F`\n", 128, 20, 0, ""},
    {":00000001Fg\n", 128, 20, 0, ""},
    {"00000001FF\n", 128, 20, 0, ""},
    {".00000001FF\n", 128, 20, 0, ""},
    {":\n", 128, 20, 0, ""},
    {":FF000000\n", 128, 20, 0, ""},
    {":0200000041BD\n" END, 128, 20, 0, ""},
    {":000000004100\n" END, 128, 20, 0, ""},
    {":010000004FB0\n:010000004FB0:00000001FF\n", 128, 20, 0, ""},
    {":0200000212340A\n" END, 128, 21, 0, ""},
    {":00000001FE\n", 128, 21, 0, ""},
    {":00000001FE\n:", 128, 21, 0, ""},
    {":010001004FB0\n" END, 128, 21, 0, ""},
    {":010000004FB1\n:", 128, 21, 0, ""},
    /* Overlap, gap, step back, not from 0. */
    {":020000000102FB\n:0100010003FB\n" END, 128, 22, 0, ""},
    {":020000000102FB\n:0100030003F9\n" END, 128, 22, 0, ""},
    {":020000000102FB\n:0100000003FC\n" END, 128, 22, 0, ""},
    {":010001004FAF\n" END, 128, 22, 0, ""},
    {":01FFFF004FB2\n" END, 128, 22, 0, ""},
    /* No data lies at no address. */
    {":00123400BA\n:010000004FB0\n:00FFFF0002\n" END, 128, 0, 1, "4F"},
    {"", 128, 23, 0, ""},
    {":010000004FB0\n", 128, 23, 0, ""},
    {":010000004FB0\n:021234040000B4\n" END, 128, 24, 0, ""},
    {":010000004FB0\n:021234040000B4\n", 128, 24, 0, ""},
    {":020000021234B6\n", 128, 24, 0, ""},
    {":00000003FD\n", 128, 24, 0, ""},
    {":00000005FB\n", 128, 24, 0, ""},
    {":000000FF01\n", 128, 24, 0, ""},
    {":00000001FF\nno line at all", 128, 24, 0, ""},
    {END "\n", 128, 24, 0, ""},
    {END "\r", 128, 24, 0, ""},
    {END END, 128, 24, 0, ""},
    /* A short output comes last. */
    {":020000004F505F\n" END, 1, 9, 0, ""},
    {":020000004F505F\n" END, 0, 9, 0, ""},
    {":020000004F505F\n" END "\n", 1, 24, 0, ""},
    {":020000004F505F\n", 0, 23, 0, ""},
};

static void check_imports(void)
{
    for (size_t i = 0; i < sizeof imports / sizeof imports[0]; i++) {
        struct lent given = lend_text(imports[i].text), out = lend_room(imports[i].room);
        calling("HEX import %zu of the table, %s", i, imports[i].text);
        struct gorvlime_stored e = CALL(hex_import)(LENT(given), LENT(out));
        same("refusal", e.refusal, imports[i].refusal);
        same("length", e.length, imports[i].length);
        holds(&out, imports[i].out);
        holds_text(&given, imports[i].text);
    }
}

/* The text of the first bytes by printf, as long as it says. */
static size_t print_text(size_t count)
{
    size_t length = 0;
    for (size_t at = 0; at < count; at += 16) {
        size_t data = count - at < 16 ? count - at : 16;
        unsigned sum = data + at / 256 + at;
        length += sprintf(due + length, ":%02zX%04zX00", data, at);
        for (size_t i = at; i < at + data; i++) {
            length += sprintf(due + length, "%02X", bytes[i]);
            sum += bytes[i];
        }
        length += sprintf(due + length, "%02X\n", -sum & 255);
    }
    return length + sprintf(due + length, END);
}

/* Makes an output of so many bytes, and a margin behind it, UNTOUCHED. */
static void fill(uint8_t *out, size_t count)
{
    memset(out, UNTOUCHED, count + MARGIN);
}

/* So many bytes of an output are UNTOUCHED, and the margin behind it. */
static void stay(const uint8_t *from, size_t count)
{
    size_t untouched = 0;
    while (untouched < count + MARGIN && from[untouched] == UNTOUCHED)
        untouched++;
    same("bytes that stay", untouched, count + MARGIN);
}

static void check_answer(struct gorvlime_stored e, uint64_t refusal, uint64_t length)
{
    same("refusal", e.refusal, refusal);
    same("length", e.length, length);
}

/* Out and in again, into outputs that are exactly large enough, and a byte too small. */
static void check_there_and_back(size_t count)
{
    size_t length = print_text(count);
    fill(text, length);
    fill(back, count);
    calling("HEX export of %zu bytes", count);
    same("characters", length, GORVLIME_HEX_LENGTH(count));
    check_answer(CALL(hex_export)(bytes, count, text, length - 1), 9, 0);
    stay(text, length);
    check_answer(CALL(hex_export)(bytes, count, text, length), 0, length);
    same("the text is as due", memcmp(text, due, length) == 0, 1);
    stay(text + length, 0);
    calling("HEX import of %zu bytes", count);
    if (count > 0)
        check_answer(CALL(hex_import)(text, length, back, count - 1), 9, 0);
    check_answer(CALL(hex_import)(text, length - strlen(END), back, count), 23, 0);
    stay(back, count);
    check_answer(CALL(hex_import)(text, length, back, count), 0, count);
    same("the bytes are as given", memcmp(back, bytes, count) == 0, 1);
    stay(back + count, 0);
}

static void check_sizes(void)
{
    for (size_t count = 0; count <= 300; count++)
        check_there_and_back(count);
    check_there_and_back(MOST_BYTES - 1);
    check_there_and_back(MOST_BYTES);
    fill(text, LONG_TEXT);
    calling("HEX export of 65,537 bytes");
    check_answer(CALL(hex_export)(bytes, MOST_BYTES + 1, text, LONG_TEXT), 8, 0);
    check_answer(CALL(hex_export)(bytes, MOST_BYTES + 1, text, 0), 8, 0);
    stay(text, LONG_TEXT);
}

/* A line of `count` bytes with CR LF and in lower case. */
static size_t put_line(char *out, size_t count, size_t address, const uint8_t *data)
{
    unsigned sum = count + address / 256 + address;
    size_t length = sprintf(out, ":%02zx%04zx00", count, address);
    for (size_t i = 0; i < count; i++) {
        length += sprintf(out + length, "%02x", data[i]);
        sum += data[i];
    }
    return length + sprintf(out + length, "%02x\r\n", -sum & 255);
}

/* All bytes, `count` on a line. */
static void check_lines_of(size_t count)
{
    char *lines = (char *)text;
    size_t length = 0;
    fill(back, MOST_BYTES);
    for (size_t at = 0; at < MOST_BYTES; at += count) {
        size_t left = MOST_BYTES - at;
        length += put_line(lines + length, left < count ? left : count, at, bytes + at);
    }
    length += sprintf(lines + length, END);
    calling("HEX import of 65,536 bytes in lines of %zu", count);
    check_answer(CALL(hex_import)(text, length, back, MOST_BYTES), 0, MOST_BYTES);
    same("the bytes are as given", memcmp(back, bytes, MOST_BYTES) == 0, 1);
    stay(back + MOST_BYTES, 0);
}

/* Behind 65,535 bytes there is room for one more, behind 65,536 for a line of no data alone. */
static void check_last_address(void)
{
    static const struct {
        size_t before;
        const char *line;
        uint64_t refusal;
    } lasts[] = {
        {MOST_BYTES - 1, ":01FFFF0007FA\n", 0}, {MOST_BYTES - 1, ":02FFFF000708F1\n", 22},
        {MOST_BYTES, ":0100000007F8\n", 22},    {MOST_BYTES, ":01FFFF0007FA\n", 22},
        {MOST_BYTES, ":0000000000\n", 0},
    };
    for (unsigned i = 0; i < sizeof lasts / sizeof lasts[0]; i++) {
        size_t length = print_text(lasts[i].before) - strlen(END);
        size_t stored = lasts[i].refusal == 0 ? MOST_BYTES : 0;
        fill(back, MOST_BYTES);
        memcpy(text, due, length);
        length += sprintf((char *)text + length, "%s" END, lasts[i].line);
        calling("HEX import of %zu bytes and %s", lasts[i].before, lasts[i].line);
        check_answer(CALL(hex_import)(text, length, back, MOST_BYTES), lasts[i].refusal, stored);
        stay(back + stored, MOST_BYTES - stored);
    }
}

/* Lines of no data make a text longer than any that is exported, and the output may be small. */
static void check_long_text(void)
{
    char *lines = (char *)text;
    size_t length = 0;
    fill(back, 1);
    while (length < MOST_TEXT)
        length += put_line(lines + length, 0, length % MOST_BYTES, NULL);
    length += put_line(lines + length, 1, 0, bytes);
    length += sprintf(lines + length, END);
    calling("HEX import of %zu characters", length);
    check_answer(CALL(hex_import)(text, length, back, 1), 0, 1);
    same("the byte", back[0], bytes[0]);
    stay(back + 1, 0);
}

void check_hex_calls(void)
{
    for (size_t i = 0; i <= MOST_BYTES; i++)
        bytes[i] = i * 7 + i / 256;
    check_exports();
    check_imports();
    check_sizes();
    check_lines_of(1);
    check_lines_of(255);
    check_last_address();
    check_long_text();
}
