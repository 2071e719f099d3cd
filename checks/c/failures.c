/* Calls on folders, and those of Fathom's interface over them, with each call of the system failing in turn: failures FOLDER.
 * It is linked with these calls wrapped. A call that fails says why, changes no result, and can be made again; at the end no block, no
 * mapping and no file is left. The status is 0 if all is so. */
#define _GNU_SOURCE
#include "szg.h"
#include "tbprobe.h"
#include <dirent.h>
#include <errno.h>
#include <fcntl.h>
#include <pthread.h>
#include <stdio.h>
#include <stdlib.h>
#include <string.h>
#include <sys/mman.h>
#include <sys/stat.h>

enum call { OPEN, FSTAT, MMAP, MALLOC, OPENDIR, KEY, SPECIFIC, CALLS, NONE };
/* Which errno a call has that fails, and the status that is due then. */
static const struct { const char *name; int why; uint32_t status; } calls[CALLS] = {
    {"open", EMFILE, SZG_MISSING}, {"fstat", EIO, SZG_MISSING}, {"mmap", ENOMEM, SZG_MISSING}, {"malloc", ENOMEM, SZG_MEMORY},
    {"opendir", EMFILE, 0}, {"pthread_key_create", EAGAIN, 0}, {"pthread_setspecific", ENOMEM, 0}};
static enum call chosen;
static long made[CALLS], fails_at, held, mapped, bytes_mapped, files, refused;
static int failed;
static char paths[4096];

static void want(const char *what, long got, long wanted) {
    if (got != wanted) failed = 1, printf("failures: call %ld of %s fails: %s: %ld, not %ld\n", fails_at, chosen < CALLS ? calls[chosen].name : "none", what, got, wanted);
}

static bool fails(enum call call) {
    if (++made[call] != fails_at || call != chosen) return false;
    errno = calls[call].why;
    return true;
}

int __real_open(const char *path, int flags, ...);
int __real_close(int file);
int __real_fstat(int file, struct stat *state);
void *__real_mmap(void *at, size_t length, int protection, int flags, int file, off_t offset);
int __real_munmap(void *at, size_t length);
void *__real_malloc(size_t size);
void *__real_calloc(size_t count, size_t size);
void *__real_aligned_alloc(size_t alignment, size_t size);
void __real_free(void *block);
DIR *__real_opendir(const char *name);
int __real_closedir(DIR *names);
int __real_pthread_key_create(pthread_key_t *key, void (*end)(void *));
int __real_pthread_setspecific(pthread_key_t key, const void *value);

int __wrap_open(const char *path, int flags, ...) {
    want("flags", flags, O_RDONLY | O_CLOEXEC | O_NONBLOCK);
    int file = fails(OPEN) ? -1 : __real_open(path, flags);
    files += file >= 0;
    return file;
}
/* A call that succeeds may change errno, but not to 0. */
int __wrap_close(int file) { return files--, errno = EDOM, __real_close(file); }
int __wrap_fstat(int file, struct stat *state) { return fails(FSTAT) ? -1 : __real_fstat(file, state); }
void *__wrap_mmap(void *at, size_t length, int protection, int flags, int file, off_t offset) {
    void *bytes = fails(MMAP) ? MAP_FAILED : __real_mmap(at, length, protection, flags, file, offset);
    if (bytes != MAP_FAILED) mapped++, bytes_mapped += (long)length;
    return bytes;
}
int __wrap_munmap(void *at, size_t length) { return mapped--, bytes_mapped -= (long)length, __real_munmap(at, length); }
static void *counted(void *block) { return held += block != NULL, block; }
void *__wrap_malloc(size_t size) { return fails(MALLOC) ? NULL : counted(__real_malloc(size)); }
void *__wrap_calloc(size_t count, size_t size) { return fails(MALLOC) ? NULL : counted(__real_calloc(count, size)); }
void *__wrap_aligned_alloc(size_t alignment, size_t size) { return fails(MALLOC) ? NULL : counted(__real_aligned_alloc(alignment, size)); }
void __wrap_free(void *block) { held -= block != NULL, __real_free(block); }
DIR *__wrap_opendir(const char *name) {
    DIR *names = fails(OPENDIR) ? NULL : __real_opendir(name);
    files += names != NULL;
    return names;
}
int __wrap_closedir(DIR *names) { return files--, __real_closedir(names); }
int __wrap_pthread_key_create(pthread_key_t *key, void (*end)(void *)) { return fails(KEY) ? calls[KEY].why : __real_pthread_key_create(key, end); }
int __wrap_pthread_setspecific(pthread_key_t key, const void *value) { return fails(SPECIFIC) ? calls[SPECIFIC].why : __real_pthread_setspecific(key, value); }

/* ---- the calls on folders */

static szg_missing missing;

/* Whether a call was carried out; else it must say what was refused. */
static bool is_done(uint32_t status) {
    want("errno is not 0", errno != 0, 1);
    if (status == SZG_DONE) return true;
    refused++;
    want("status", status, chosen < CALLS ? calls[chosen].status : SZG_DONE);
    if (status == SZG_MISSING) want("errno", errno, calls[chosen].why), want("name", memcmp(missing.name, "KQvK", 5), 0);
    return false;
}

static void use_folders(void) {
    static const szg_man men[] = {{SZG_KING, SZG_WHITE, 45}, {SZG_QUEEN, SZG_WHITE, 6}, {SZG_KING, SZG_BLACK, 63}};
    szg_folders *const none = (szg_folders *)paths, *folders = none, *second = none, *third = none;
    int8_t class = 9;
    szg_distance distance = {9, 9};
    szg_move moves[SZG_MAX_MOVES];
    size_t count = 99;
    while (!is_done(szg_open_folders(paths, &folders))) want("folders", folders == none, 1);
    while (!is_done(szg_share_folders(folders, &second))) want("second", second == none, 1);
    /* so that a table is first opened by its front */
    szg_limit_folders(second, 15);
    while (!is_done(szg_folders_wdl(folders, men, 3, SZG_WHITE, SZG_NO_SQUARE, &class, &missing))) want("class", class, 9);
    while (!is_done(szg_folders_dtz(second, men, 3, SZG_WHITE, SZG_NO_SQUARE, 0, &distance, &missing))) want("distance", distance.class_of_position, 9);
    while (!is_done(szg_folders_moves(folders, men, 3, SZG_WHITE, SZG_NO_SQUARE, 0, moves, SZG_MAX_MOVES, &count, &missing))) want("count", (long)count, 99);
    /* a later handle has the tables that are open */
    while (!is_done(szg_share_folders(folders, &third))) want("third", third == none, 1);
    while (!is_done(szg_folders_wdl(third, men, 3, SZG_WHITE, SZG_NO_SQUARE, &class, &missing))) continue;
    want("class", class, 2), want("distance", distance.dtz, 1), want("mate", moves[0].mate, true), want("mappings", mapped, 2);
    szg_close_folders(folders), szg_close_folders(second), szg_close_folders(third);
}

/* ---- the calls of Fathom's interface, by two threads: one ends with its tables open, the other closes them */

static bool is_true(bool is) { return refused += !is, is; }

static void *use_fathom(void *is_second) {
    unsigned class, root;
    /* a folder that can't be read has no tables */
    while (!is_true(tb_init(paths)) || !is_true(TB_LARGEST == 3)) continue;
    while (!is_true((class = tb_probe_wdl(1ull << 45 | 1 << 6, 1ull << 63, 1ull << 45 | 1ull << 63, 1 << 6, 0, 0, 0, 0, 0, 0, 0, true)) != TB_RESULT_FAILED)) continue;
    while (!is_true((root = tb_probe_root(1ull << 45 | 1 << 6, 1ull << 63, 1ull << 45 | 1ull << 63, 1 << 6, 0, 0, 0, 0, 0, 0, 0, true, NULL)) != TB_RESULT_FAILED)) continue;
    want("class", (long)class, TB_WIN), want("dtz", (long)TB_GET_DTZ(root), 1);
    if (is_second) tb_free(), want("after tb_free", (long)tb_probe_wdl(1, 1ull << 63, 1 | 1ull << 63, 0, 0, 0, 0, 0, 0, 0, 0, true), (long)TB_RESULT_FAILED);
    return NULL;
}

static void in_thread(void) {
    pthread_t thread;
    for (int i = 0; i < 2; i++)
        if (pthread_create(&thread, NULL, use_fathom, i ? &thread : NULL) != 0 || pthread_join(thread, NULL) != 0) want("thread", 0, 1);
}

static long tried, unnoted;

static void run(void (*use)(void), enum call call, long number) {
    chosen = call, fails_at = number, refused = held = mapped = bytes_mapped = files = 0;
    memset(made, 0, sizeof made);
    errno = EDOM;
    use();
    /* a call does without memory for the bits that say which blocks have passed */
    if (call == MALLOC && refused == 0) unnoted++;
    else want("calls refused", refused, number > 0);
    want("blocks left", held, 0), want("mappings left", mapped, 0), want("bytes left mapped", bytes_mapped, 0), want("files left", files, 0);
}

static void run_all(void (*use)(void)) {
    long whole[CALLS];
    run(use, NONE, 0);
    memcpy(whole, made, sizeof whole);
    for (enum call call = 0; call < CALLS; call++)
        for (long number = 1; number <= whole[call]; number++, tried++) run(use, call, number);
}

int main(int count, char **words) {
    if (count != 2) return fprintf(stderr, "failures FOLDER\n"), 2;
    snprintf(paths, sizeof paths, "/nowhere:%s", words[1]);
    run_all(use_folders);
    snprintf(paths, sizeof paths, "%s", words[1]);
    run(in_thread, KEY, 1); /* the key is made once */
    run_all(in_thread);
    /* the longest name has room behind the path */
    want("six men", tb_init(paths) && tb_probe_wdl(31, 1ull << 60, 1 | 1ull << 60, 2, 4, 8, 16, 0, 0, 0, 0, true) == TB_RESULT_FAILED, true), tb_free();
    /* four in a use of folders, and four in one of Fathom's interface */
    want("subtables without bits", unnoted, 8);
    if (!failed) printf("%ld failures of the system are as expected\n", tried + 1);
    return failed;
}
