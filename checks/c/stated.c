/* What szg.h says of uses at the edge: a share of a handle with itself, moved and assigned handles, the stack that calls use, a map
 * whose file is truncated: stated FOLDER. The status is 0 if all is as stated. */
#define _GNU_SOURCE
#include "trying.h"
#include <malloc.h>
#include <pthread.h>
#include <signal.h>
#include <sys/mman.h>
#include <sys/resource.h>
#include <sys/stat.h>
#include <sys/wait.h>
#include <fcntl.h>
#include <unistd.h>

enum { KB = 1024, STACK = 1 << 20, READING = 56 * KB, LISTING = 32 * KB, OTHERS = 8 * KB, STEP = 97 };

static uint32_t open_table(szg_table *into) { return szg_open(OF_FILE, into, &answer); }
static uint32_t open_front(szg_front *into) { return szg_open_front(OF_FILE, into, &answer); }

/* ---- Handles */

static void share_with_itself(void) {
    szg_table one = SZG_NO_TABLE;
    szg_front other = SZG_NO_FRONT;
    uint16_t value;
    uint64_t size;
    want("open", open_table(&one), SZG_DONE);
    want("a share with itself", szg_share(&one, &one), SZG_CLOSED);
    want("a value after it", szg_get(&one, 0, 0, 0, &value), SZG_CLOSED);
    want("open front", open_front(&other), SZG_DONE);
    want("a share of a front with itself", szg_share_front(&other, &other), SZG_CLOSED);
    want("a size after it", szg_front_size(&other, 0, 0, &size), SZG_CLOSED);
}

/* A handle is copied, and the first one assigned: the second one holds the table. */
static void move_handles(void) {
    szg_table one = SZG_NO_TABLE, second = SZG_NO_TABLE;
    szg_front other = SZG_NO_FRONT;
    uint16_t value;
    uint64_t size;
    want("open", open_table(&one), SZG_DONE);
    second = one;
    one = SZG_NO_TABLE;
    szg_close(&one);
    want("a value of a handle that was moved", szg_get(&second, 0, 0, 0, &value), SZG_DONE);
    szg_close(&second);
    want("open front", open_front(&other), SZG_DONE);
    szg_front moved = other;
    other = SZG_NO_FRONT;
    szg_close_front(&other);
    want("a size of a front that was moved", szg_front_size(&moved, 0, 0, &size), SZG_DONE);
    szg_close_front(&moved);
}

/* Both, often: the memory of no table stays. */
static void attempt_handles(void) {
    enum { TIMES = 100 };
    size_t before = 0;
    for (int i = 0; i < 2 * TIMES; i++) {
        if (i == TIMES) before = mallinfo2().uordblks;
        share_with_itself();
        move_handles();
    }
    want("whether memory stays", mallinfo2().uordblks - before < TIMES, true);
}

/* ---- The stack */

static uint16_t *values;
static uint64_t size_of_all;

static void nothing(void) {}
static void check(void) { want("check", szg_check(OF_FILE, &answer), SZG_DONE); }
static void size(void) { want("size", szg_size(OF_FILE, 0, 0, &size_of_all, &answer), SZG_DONE); }
static void all_values(void) { want("values", szg_values(OF_FILE, 0, 0, values, size_of_all, &answer), SZG_DONE); }
static void one_value(void) {
    uint64_t index = size_of_all - 1;
    want("values at", szg_values_at(OF_FILE, 0, 0, &index, 1, values, 1, &answer), SZG_DONE);
}
static void open_again(void) { want("open", open_table(&table), SZG_DONE); }
static void open_front_again(void) { want("open front", open_front(&front), SZG_DONE); }
static void all(void) { want("all", szg_all(&table, 0, 0, values, size_of_all), SZG_DONE); }

static void look_up(void) {
    szg_table second = SZG_NO_TABLE;
    szg_front other = SZG_NO_FRONT;
    szg_share(&table, &second), szg_share_front(&front, &other);
    for (uint64_t i = 0; i < size_of_all; i += STEP) look_up_by_each_call(&second, &other, i);
    szg_close(&second), szg_close_front(&other);
}

static void *run(void *call) {
    (*(void (**)(void))call)();
    return NULL;
}

/* The bytes of a stack that a call uses, with those of a thread. */
static size_t used_by(void (*call)(void)) {
    uint8_t *stack = mmap(NULL, STACK, PROT_READ | PROT_WRITE, MAP_PRIVATE | MAP_ANONYMOUS, -1, 0);
    memset(stack, 0xa5, STACK);
    pthread_attr_t settings;
    pthread_t thread;
    pthread_attr_init(&settings);
    want("a stack", pthread_attr_setstack(&settings, stack, STACK), 0);
    want("a thread", pthread_create(&thread, &settings, run, &call), 0);
    pthread_join(thread, NULL);
    size_t unused = 0;
    while (unused < STACK && stack[unused] == 0xa5) unused++;
    munmap(stack, STACK);
    return STACK - unused;
}

static void attempt_stacks(void) {
    size_t least = used_by(nothing);
    want("size", szg_size(OF_FILE, 0, 0, &size_of_all, &answer), SZG_DONE);
    values = malloc(2 * size_of_all);
    void (*const reading[])(void) = {check, size, all_values, one_value, open_again, open_front_again};
    for (size_t i = 0; i < sizeof reading / sizeof *reading; i++) {
        size_t used = used_by(reading[i]) - least;
        want("whether a call that reads a table uses less than 56 KB of stack", used < READING, true);
    }
    want("whether a list of all values uses less than 32 KB of stack", used_by(all) - least < LISTING, true);
    want("whether other calls use less than 8 KB of stack", used_by(look_up) - least < OTHERS, true);
    free(values);
}

/* A table of KQvK whose last symbol has 256 values by pairs that are nested 255 deep, each of the symbol before and a leaf. */
static void make_deep(void) {
    enum { SYMBOLS = 256, SPANS = 8, SPAN = 1 << 12, VALUES = 31332 };
    uint8_t *at = bytes;
    memset(bytes, 0, 1024);
    /* one block of 16 bytes; the words 0 and 1 are the symbols 254 and 255 */
    memcpy(at, "\x71\xe8\x23\x5d\x01\x00\x66\x55\xee\0" "\0\x04\x0c\0" "\x01\0\0\0" "\x01\x01\xfe\0" "\0\x01", 24);
    at += 24;
    memcpy(at, "\x02\xf0\xff", 3), at += 3;
    for (int symbol = 1; symbol < SYMBOLS; symbol++) *at = (uint8_t)(symbol - 1), at += 3;
    memcpy(at, "\x80\x02", 2), at += 2;
    for (int span = 0; span < SPANS; span++, at += 6) at[4] = (SPAN * span + SPAN / 2) & 255, at[5] = (SPAN * span + SPAN / 2) >> 8;
    *at++ = (VALUES - 1) & 255, *at++ = (VALUES - 1) >> 8;
    at += -(at - bytes) & 63;
    memset(at, 255, 16), at += 64;
    take("deep", "KQvK", false, (size_t)(at - bytes) + 16);
}

static void attempt_deep(void) {
    make_deep();
    hold();
    attempt_stacks();
    let_go();
}

/* ---- A map whose file is truncated */

/* A child's status after a look-up in a map whose file was truncated. */
static int status_of_truncated(int copy) {
    pid_t child = fork();
    if (child == 0) {
        struct rlimit none = {0, 0};
        setrlimit(RLIMIT_CORE, &none);
        uint16_t value;
        szg_bad_block bad;
        uint8_t *map = mmap(NULL, length, PROT_READ, MAP_SHARED, copy, 0);
        szg_front opened = SZG_NO_FRONT;
        if (szg_open_front(name, strlen(name), dtz, map, length, &opened, &answer) != SZG_DONE) _exit(1);
        if (szg_front_get(&opened, map, length, 0, 0, 0, &value, &bad) != SZG_DONE || ftruncate(copy, 0) != 0) _exit(1);
        szg_front_get(&opened, map, length, 0, 0, 0, &value, &bad);
        _exit(0);
    }
    int status = 0;
    waitpid(child, &status, 0);
    return status;
}

static void attempt_truncated(void) {
    char path[] = "/tmp/stated-XXXXXX";
    int copy = mkstemp(path);
    want("a file", copy >= 0, true);
    unlink(path);
    want("its bytes", pwrite(copy, bytes, length, 0), length);
    szg_byte_range range;
    want("a range", szg_front_find(&front, 0, 0, 0, &range), SZG_DONE);
    int status = status_of_truncated(copy);
    want("the signal of a look-up by the map", WIFSIGNALED(status) ? WTERMSIG(status) : 0, range.count ? SIGBUS : 0);
    /* a caller who reads the bytes sees that they are fewer */
    uint8_t block[256 * KB];
    uint16_t value;
    szg_bad_block bad;
    ssize_t count = pread(copy, block, range.count, (off_t)range.offset);
    want("a look-up by reading", szg_front_value(&front, 0, 0, 0, block, (size_t)count, &value, &bad), range.count ? SZG_CHANGED : SZG_DONE);
    close(copy);
}

/* ---- Bytes of a tablebase that change: the sparse index, read where it is, leads beyond the last block. */
static void attempt_changed(void) {
    enum { FIRST = 100 };
    szg_tablebase tables = SZG_NO_TABLEBASE;
    szg_man men[SZG_MAX_MEN];
    szg_byte_range range;
    szg_missing missing = {"", true, 7, 7};
    size_t men_count;
    uint8_t mover, *copy = malloc(length);
    int8_t class;
    int changed = 0, without_class = 0;
    want("a range", szg_front_find(&front, 0, 0, 0, &range), SZG_DONE);
    memcpy(copy, bytes, length);
    want("a table", szg_tablebase_add(&tables, name, strlen(name), dtz, copy, length, &answer), SZG_DONE);
    memset(copy, 255, length);
    for (uint64_t index = 0; index < FIRST && szg_front_placement(&front, 0, 0, index, men, SZG_MAX_MEN, &men_count, &mover) == SZG_DONE; index++) {
        uint32_t status = szg_tablebase_wdl(&tables, men, men_count, mover, SZG_NO_SQUARE, &class, &missing);
        changed += status == SZG_CHANGED;
        without_class += status == SZG_NO_CLASS;
    }
    want("whether bytes that changed are seen", changed > 0, !dtz && range.count > 0);
    want("positions without a class", without_class, 0);
    if (changed > 0) want("the table's name", strcmp(missing.name, name), 0), want("block", missing.block, 7);
    szg_close_tablebase(&tables);
    free(copy);
}

static void attempt(void) {
    hold();
    attempt_stacks();
    attempt_changed();
    attempt_handles();
    attempt_truncated();
    let_go();
}

int main(int count, char **words) {
    each_sample(folder_of(count, words), attempt);
    attempt_deep();
    return ended();
}
