/*
 * The calls that go over their input twice, the moves and the HEX import, while the input changes under them, which the
 * header forbids: whatever comes of it, no byte outside the output may be stored, and none outside the input read. What is
 * lent ends where a page begins that may not be touched.
 *
 *     changing interrupts CHECKS    the first store into each page of the output changes the input, as an interrupt would
 *     changing threads CHECKS       another thread changes the input all the time
 *     changing overlaps CHECKS      the output lies over a part of the input, so that the stores change it
 *
 * CHECKS is how many checks are due.
 */
#define _GNU_SOURCE   /* MAP_ANONYMOUS */

#include "check.h"

#include <pthread.h>
#include <signal.h>
#include <stdatomic.h>
#include <stdio.h>
#include <stdlib.h>
#include <string.h>
#include <sys/mman.h>
#include <time.h>
#include <unistd.h>

/* Pages to lend from, and the one behind them that may not be touched. */
struct pages {
    const char *name;
    uint8_t *start, *guard;
};

enum { MOST = 1 << 17 };

static struct pages inputs = {.name = "input"}, outputs = {.name = "output"};
static size_t page;

static void map(struct pages *p)
{
    page = (size_t)sysconf(_SC_PAGESIZE);
    p->start = mmap(NULL, MOST + page, PROT_READ | PROT_WRITE, MAP_PRIVATE | MAP_ANONYMOUS, -1, 0);
    if (p->start == MAP_FAILED || mprotect(p->start + MOST, page, PROT_NONE) != 0)
        abort();
    p->guard = p->start + MOST;
}

/* What a call answered: the length of what it stored, or why not. */
struct answer {
    uint64_t refusal, length;
};

typedef struct answer caller(const uint8_t *in, size_t count, uint8_t *out, size_t room);

static struct answer move_to_new(const uint8_t *in, size_t count, uint8_t *out, size_t room)
{
    struct gorvlime_moved a = gorvlime_move_to_new(in, count, out, room);
    return (struct answer){a.refusal, a.length};
}

static struct answer move_to_old(const uint8_t *in, size_t count, uint8_t *out, size_t room)
{
    struct gorvlime_moved a = gorvlime_move_to_old(in, count, out, room);
    return (struct answer){a.refusal, a.length};
}

static struct answer hex_import(const uint8_t *in, size_t count, uint8_t *out, size_t room)
{
    struct gorvlime_stored a = gorvlime_hex_import(in, count, out, room);
    return (struct answer){a.refusal, a.length};
}

/* An input of `count` bytes that is stored as `room` bytes, and as more where the bytes from `first` on, `many` of them and
 * `apart` bytes from one to the next, have the second of their values. */
struct subject {
    const char *name;
    caller *call;
    size_t count, room, first, apart, many;
    uint8_t values[2], bytes[MOST];
};

static struct subject subjects[] = {
    {.name = "move to new", .call = move_to_new, .values = {0x84, 0x04}},
    {.name = "move to old", .call = move_to_old, .values = {0x00, 0x01}},
    {.name = "HEX import", .call = hex_import, .values = {'0', '1'}},
};
enum { SUBJECTS = sizeof subjects / sizeof subjects[0] };

static void put(struct subject *s, const void *bytes, size_t count)
{
    memcpy(s->bytes + s->count, bytes, count);
    s->count += count;
}

/* Records whose v takes two bytes, with seven cells; where its first byte is its last, the second is n, and n is a cell. */
static void make_old_dump(struct subject *s, size_t records)
{
    static const uint8_t record[] = {1, 2, 2, 0x84, 8, 7, 1, 1, 1, 1, 1, 1, 1};
    for (size_t i = 0; i < records; i++)
        put(s, record, sizeof record);
    s->first = 3, s->apart = sizeof record, s->many = records;
    s->room = 6 + 10 * records;
}

/* Records of the first of two layouts, which has a v of one byte where the other has one of nine. */
static void make_new_dump(struct subject *s, size_t records)
{
    static const uint8_t list[] = {2, 0, 2, 2, 4, 0, 2, 2, 0xff, 0xff, 0xff, 0xff, 0xff, 0xff, 0xff, 0xff, 0x7f};
    static const uint8_t record[] = {1, 0, 2, 7, 7};
    put(s, list, sizeof list);
    for (size_t i = 0; i < records; i++)
        put(s, record, sizeof record);
    s->first = sizeof list + 1, s->apart = sizeof record, s->many = records;
    s->room = 7 * records;
}

static void put_line(struct subject *s, unsigned count, unsigned address)
{
    char line[64];
    unsigned sum = count + address / 256 + address % 256;
    int length = sprintf(line, ":%02X%04X00", count, address);
    for (unsigned i = 0; i < count; i++, sum += 0x5a)
        length += sprintf(line + length, "5A");
    length += sprintf(line + length, "%02X\n", (256 - sum % 256) % 256);
    put(s, line, length);
}

/* Lines of 5 and 10 bytes in turn: where 5 is 21, one line reaches from the colon of the first to the end of the second. */
static void make_text(struct subject *s, size_t pairs)
{
    static const char end[] = ":00000001FF\n";
    for (unsigned i = 0; i < pairs; i++) {
        put_line(s, 5, 15 * i);
        put_line(s, 10, 15 * i + 5);
    }
    s->first = 1, s->apart = s->count / pairs, s->many = pairs;
    s->room = 15 * pairs;
    put(s, end, sizeof end - 1);
}

static void make_subjects(size_t records)
{
    for (size_t i = 0; i < SUBJECTS; i++)
        subjects[i].count = 0;
    make_old_dump(&subjects[0], records);
    make_new_dump(&subjects[1], records);
    make_text(&subjects[2], records);
}

static const struct subject *subject;

/* Lends the subject's input up to the guard. */
static uint8_t *lend_input(void)
{
    return memcpy(inputs.guard - subject->count, subject->bytes, subject->count);
}

/* Gives the changing bytes of the input one of their values. */
static void change(unsigned which)
{
    volatile uint8_t *in = inputs.guard - subject->count + subject->first;
    for (size_t i = 0; i < subject->many; i++)
        in[i * subject->apart] = subject->values[which];
}

static uint32_t random_number(void)
{
    static uint32_t last = 1;
    return last = last * 1664525 + 1013904223;
}

/* Puts the input's bytes anywhere in it. */
static void shuffle(void)
{
    volatile uint8_t *in = inputs.guard - subject->count;
    for (size_t i = 0; i < subject->count; i++)
        in[i] = subject->bytes[random_number() / 256 % subject->count];
}

/* The input changes at stores: whether it does now, and is shuffled then, and how often it did. */
static volatile sig_atomic_t is_armed, is_shuffled, changes;

static void tell(const char *words)
{
    if (write(2, words, strlen(words)) < 0)
        abort();
}

static void on_fault(int number, siginfo_t *fault, void *context)
{
    (void)number, (void)context;
    uint8_t *at = fault->si_addr;
    if (is_armed && at >= outputs.start && at < outputs.guard) {
        changes++;
        if (is_shuffled)
            shuffle();
        else
            change(changes % 2);
        if (mprotect(outputs.start + (at - outputs.start) / page * page, page, PROT_READ | PROT_WRITE) != 0)
            abort();
        return;
    }
    tell(subject->name);
    tell(at >= outputs.guard && at < outputs.guard + page ? ": touched what is behind the output\n"
         : at >= inputs.guard && at < inputs.guard + page ? ": touched what is behind the input\n"
                                                          : ": touched what is not lent\n");
    _exit(1);
}

static void watch_faults(void)
{
    struct sigaction action = {.sa_sigaction = on_fault, .sa_flags = SA_SIGINFO};
    sigaction(SIGSEGV, &action, NULL);
    sigaction(SIGBUS, &action, NULL);
}

static void call_unchanged(void)
{
    calling("%s of %zu bytes, unchanged", subject->name, subject->count);
    uint8_t *in = lend_input();
    struct answer a = subject->call(in, subject->count, outputs.guard - subject->room, subject->room);
    same("refusal", a.refusal, 0);
    same("length", a.length, subject->room);
}

static void call_interrupted(size_t room, int how)
{
    calling("%s of %zu bytes into %zu, interrupted", subject->name, subject->count, room);
    uint8_t *in = lend_input();
    changes = 0;
    is_shuffled = how;
    if (mprotect(outputs.start, MOST, PROT_READ) != 0)
        abort();
    is_armed = 1;
    struct answer a = subject->call(in, subject->count, outputs.guard - room, room);
    is_armed = 0;
    if (mprotect(outputs.start, MOST, PROT_READ | PROT_WRITE) != 0)
        abort();
    same("refusal", a.refusal, 0);
    same("the input changed", changes > 0, 1);
    same("the length fits", a.length <= room, 1);
}

/* The records and lines of a few sizes, with no room to spare and a little more. */
static void check_interrupts(void)
{
    static const size_t records[] = {1, 2, 3, 30, 700};
    for (size_t i = 0; i < sizeof records / sizeof records[0]; i++) {
        make_subjects(records[i]);
        for (subject = subjects; subject < subjects + SUBJECTS; subject++) {
            call_unchanged();
            for (size_t more = 0; more < 64; more++) {
                call_interrupted(subject->room + more, 0);
                call_interrupted(subject->room + more, 1);
            }
        }
    }
}

static atomic_int is_done;

/* Both values in turn. The first stays for up to some tenths of a millisecond, so that a first pass may find nothing else,
 * and the second for a tenth of that. */
static void *change_always(void *unused)
{
    (void)unused;
    for (unsigned which = 0; !is_done; which = !which) {
        change(which);
        for (volatile uint32_t i = random_number() >> (which == 0 ? 14 : 17); i > 0; i--)
            continue;
    }
    return NULL;
}

static double now(void)
{
    struct timespec t;
    clock_gettime(CLOCK_MONOTONIC, &t);
    return t.tv_sec + t.tv_nsec / 1e9;
}

static void call_beside_a_thread(double seconds)
{
    uint8_t *in = lend_input();
    pthread_t thread;
    is_done = 0;
    if (pthread_create(&thread, NULL, change_always, NULL) != 0)
        abort();
    unsigned calls = 0, between = 0, unfit = 0;
    for (double end = now() + seconds; calls < 4000 || now() < end; calls++) {
        struct answer a = subject->call(in, subject->count, outputs.guard - subject->room, subject->room);
        unfit += a.length > subject->room;
        between += a.refusal == 0 && a.length != subject->room;
    }
    is_done = 1;
    pthread_join(thread, NULL);
    printf("%s: %u calls, in %u of which the length tells that the input changed between the passes\n", subject->name, calls,
           between);
    same("calls whose length does not fit", unfit, 0);
}

static void check_threads(void)
{
    make_subjects(700);
    for (subject = subjects; subject < subjects + SUBJECTS; subject++) {
        call_unchanged();
        calling("%s beside a thread that changes the input", subject->name);
        call_beside_a_thread(1);
    }
}

/* The input ends `away` bytes before the output's end. */
static void call_overlapping(size_t away)
{
    static uint8_t before[MOST];
    uint8_t *in = outputs.guard - away - subject->count, *out = outputs.guard - subject->room;
    calling("%s of %zu bytes that end %zu bytes before the output's end", subject->name, subject->count, away);
    memset(outputs.start, UNTOUCHED, MOST);
    memcpy(in, subject->bytes, subject->count);
    memcpy(before, outputs.start, MOST);
    struct answer a = subject->call(in, subject->count, out, subject->room);
    same("the length fits", a.length <= subject->room, 1);
    same("what is before the output stays", memcmp(outputs.start, before, out - outputs.start), 0);
}

static void check_overlaps(void)
{
    static const size_t records[] = {1, 2, 3, 30};
    for (size_t i = 0; i < sizeof records / sizeof records[0]; i++) {
        make_subjects(records[i]);
        for (subject = subjects; subject < subjects + SUBJECTS; subject++)
            for (size_t away = 0; away < subject->room; away++)
                call_overlapping(away);
    }
}

int main(int count, char **words)
{
    if (count != 3) {
        fputs("usage: changing interrupts|threads|overlaps CHECKS\n", stderr);
        return 2;
    }
    map(&inputs);
    map(&outputs);
    watch_faults();
    if (strcmp(words[1], "interrupts") == 0)
        check_interrupts();
    if (strcmp(words[1], "threads") == 0)
        check_threads();
    if (strcmp(words[1], "overlaps") == 0)
        check_overlaps();
    return done(strtoul(words[2], NULL, 10));
}
