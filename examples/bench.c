/*
 * A file of cells to Intel HEX, as the bench that programs new boards loads it, and back.
 *
 *     make archive
 *     tools/cc examples/bench.c target/staticlib/libgorvlime.a -o target/bench-file
 *     tools/run-c target/bench-file out <samples/drives.dump >target/drives.hex
 *     tools/run-c target/bench-file in <target/drives.hex >target/drives.dump
 */
#include "gorvlime.h"

#include <inttypes.h>
#include <stdio.h>
#include <string.h>

/* One byte more than an address can be given to, so that the call sees what is too much and refuses it. */
static uint8_t cells[GORVLIME_HEX_BYTES_MOST + 1];

/* More than GORVLIME_HEX_MOST, since texts of others are longer: here is room for lines of one byte with CR LF. */
static uint8_t text[1 << 20];

static const char *words_for(uint64_t refusal)
{
    switch (refusal) {
    case GORVLIME_TOO_LONG: return "more than 65,536 bytes";
    case GORVLIME_LINE: return "a line has not the shape that it should have";
    case GORVLIME_SUM: return "the sum of a line is wrong";
    case GORVLIME_ADDRESS: return "the addresses do not run on from 0";
    case GORVLIME_NO_END: return "the end line is missing";
    case GORVLIME_TYPE: return "a line is neither data nor the end, or there is text behind the end";
    default: return "no room";
    }
}

static int fail(const char *why)
{
    fprintf(stderr, "bench: %s\n", why);
    return 1;
}

/* Nothing is printed where the call was refused, since nothing was stored. */
static int put(struct gorvlime_stored stored, const uint8_t *out)
{
    if (stored.refusal != GORVLIME_ACCEPTED) {
        fprintf(stderr, "bench: refusal %" PRIu64 ": %s\n", stored.refusal, words_for(stored.refusal));
        return 1;
    }
    if (fwrite(out, 1, stored.length, stdout) != stored.length || fflush(stdout) != 0)
        return fail("cannot write standard output");
    return 0;
}

static int cells_out(void)
{
    size_t count = fread(cells, 1, sizeof cells, stdin);
    if (ferror(stdin))
        return fail("cannot read standard input");
    return put(gorvlime_hex_export(cells, count, text, sizeof text), text);
}

static int cells_in(void)
{
    size_t count = fread(text, 1, sizeof text, stdin);
    if (ferror(stdin))
        return fail("cannot read standard input");
    if (count == sizeof text)
        return fail("the text is longer than this program has room for");
    return put(gorvlime_hex_import(text, count, cells, sizeof cells), cells);
}

int main(int count, char **words)
{
    const char *command = count == 2 ? words[1] : "";
    if (strcmp(command, "out") == 0)
        return cells_out();
    if (strcmp(command, "in") == 0)
        return cells_in();
    fputs("usage: bench out <CELLS >TEXT | bench in <TEXT >CELLS\n", stderr);
    return 2;
}
