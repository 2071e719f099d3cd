/* Stands before the C library, to a program that it is preloaded to.
 *
 * REFUSE=N refuses the Nth allocation. Of the reads of standard input and the writes to standard output, counted
 * together: MOST=K lets each move at most K bytes, INTERRUPTED=M interrupts each M times before it is done, FAIL=N fails
 * the Nth of those done, and with FAIL_ON=1 all from there on. ASKED names the file that is told how many allocations,
 * and how many reads and writes, there were. */
#define _GNU_SOURCE
#include <dlfcn.h>
#include <errno.h>
#include <stdio.h>
#include <stdlib.h>
#include <sys/types.h>

static unsigned long asked, moves, interrupted, refused, most = -1ul, interruptions, fails_at;
static int fails_on;

static unsigned long number_of(const char *name, unsigned long otherwise) {
    const char *text = getenv(name);
    return text ? strtoul(text, NULL, 10) : otherwise;
}

/* Reads the environment once, at the first call. */
static void read_settings(void) {
    static int are_read;
    if (are_read) return;
    are_read = 1;
    refused = number_of("REFUSE", 0), most = number_of("MOST", -1ul), interruptions = number_of("INTERRUPTED", 0);
    fails_at = number_of("FAIL", 0), fails_on = number_of("FAIL_ON", 0) != 0;
}

static int is_refused(void) {
    read_settings();
    return ++asked == refused;
}

void *malloc(size_t size) {
    void *(*next)(size_t) = (void *(*)(size_t))dlsym(RTLD_NEXT, "malloc");
    return is_refused() ? NULL : next(size);
}

void *realloc(void *old, size_t size) {
    void *(*next)(void *, size_t) = (void *(*)(void *, size_t))dlsym(RTLD_NEXT, "realloc");
    return is_refused() ? NULL : next(old, size);
}

/* Whether a read or write is done; else errno says why. */
static int is_done(void) {
    read_settings();
    if (interrupted < interruptions) return interrupted++, errno = EINTR, 0;
    interrupted = 0;
    moves += 1;
    if (!fails_at || moves < fails_at || (moves > fails_at && !fails_on)) return 1;
    return errno = EIO, 0;
}

static size_t at_most(size_t size) { return size < most ? size : most; }

ssize_t read(int file, void *chunk, size_t size) {
    ssize_t (*next)(int, void *, size_t) = (ssize_t (*)(int, void *, size_t))dlsym(RTLD_NEXT, "read");
    if (file != 0) return next(file, chunk, size);
    return is_done() ? next(file, chunk, at_most(size)) : -1;
}

ssize_t write(int file, const void *chunk, size_t size) {
    ssize_t (*next)(int, const void *, size_t) = (ssize_t (*)(int, const void *, size_t))dlsym(RTLD_NEXT, "write");
    if (file != 1) return next(file, chunk, size);
    return is_done() ? next(file, chunk, at_most(size)) : -1;
}

__attribute__((destructor)) static void tell(void) {
    const char *name = getenv("ASKED");
    unsigned long all = asked, done = moves;
    FILE *file = name ? fopen(name, "w") : NULL;
    if (file) fprintf(file, "%lu %lu\n", all, done), fclose(file);
}
