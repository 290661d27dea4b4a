/*
 * read and write as a system may let them go: interrupted, idle, short, failing. tools/run --preload puts them in front of
 * the C library's. What is done to calls on standard input stands in READS of the environment, to those on standard output in
 * WRITES, as five numbers:
 *
 *     interrupted    so many calls fail with EINTR before each one that goes through
 *     most           a call that goes through moves no more bytes than these
 *     good           when so many calls have gone through,
 *     error          the next one fails with this number, where it is not 0, and those behind it go through again
 *     idle           so many calls move nothing and say so before each one that goes through; of a read that is the end
 *
 * At the end a line with four numbers goes to the descriptor that TOLD names: the calls that were interrupted and those that
 * went through, of standard input and of standard output.
 */
#define _DEFAULT_SOURCE

#include <errno.h>
#include <stdio.h>
#include <stdlib.h>
#include <sys/syscall.h>
#include <unistd.h>

struct faults {
    const char *name;
    long number;
    unsigned long interrupted, most, good, error, idle;
    unsigned long in_a_row, interruptions, passed;
};

static struct faults faults[2] = {{.name = "READS", .number = SYS_read}, {.name = "WRITES", .number = SYS_write}};

__attribute__((constructor)) static void take_faults(void)
{
    for (struct faults *f = faults; f < faults + 2; f++)
        if (sscanf(getenv(f->name), "%lu %lu %lu %lu %lu", &f->interrupted, &f->most, &f->good, &f->error, &f->idle) != 5)
            abort();
}

__attribute__((destructor)) static void tell_counts(void)
{
    dprintf(atoi(getenv("TOLD")), "%lu %lu %lu %lu\n", faults[0].interruptions, faults[0].passed, faults[1].interruptions,
            faults[1].passed);
}

static ssize_t failed(int error)
{
    errno = error;
    return -1;
}

static ssize_t moved(struct faults *f, int descriptor, const void *bytes, size_t count)
{
    if (f->in_a_row < f->interrupted) {
        f->in_a_row++;
        f->interruptions++;
        return failed(EINTR);
    }
    if (f->in_a_row < f->interrupted + f->idle) {
        f->in_a_row++;
        return 0;
    }
    f->in_a_row = 0;
    if (f->error != 0 && f->passed == f->good) {
        int error = f->error;
        f->error = 0;
        return failed(error);
    }
    f->passed++;
    return syscall(f->number, descriptor, bytes, count < f->most ? count : f->most);
}

ssize_t read(int descriptor, void *bytes, size_t count)
{
    return descriptor == 0 ? moved(&faults[0], descriptor, bytes, count) : syscall(SYS_read, descriptor, bytes, count);
}

ssize_t write(int descriptor, const void *bytes, size_t count)
{
    return descriptor == 1 ? moved(&faults[1], descriptor, bytes, count) : syscall(SYS_write, descriptor, bytes, count);
}
