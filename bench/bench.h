/* What the benches in C share: clocks, the least of several times, numbers drawn by a fixed rule, files, and failures. */
#ifndef BENCH_H
#define BENCH_H
#include <inttypes.h>
#include <stdbool.h>
#include <stdint.h>
#include <stdio.h>
#include <stdlib.h>
#include <string.h>
#include <time.h>

static inline void fail(const char *what) {
    fprintf(stderr, "%s\n", what);
    exit(1);
}

static inline double clock_seconds(clockid_t clock) {
    struct timespec t;
    clock_gettime(clock, &t);
    return (double)t.tv_sec + 1e-9 * (double)t.tv_nsec;
}

/* The processor time of this process in seconds. */
static inline double now(void) { return clock_seconds(CLOCK_PROCESS_CPUTIME_ID); }

/* Keeps the least time; 0 stands for none. */
static inline void least(double *best, double time) { if (*best == 0 || time < *best) *best = time; }

/* A number below 2^31. */
static inline uint32_t draw(uint64_t *state) {
    *state = *state * 6364136223846793005u + 1442695040888963407u;
    return (uint32_t)(*state >> 33);
}

/* The bytes of a file, with 64 zeros after them. */
static inline uint8_t *bytes_of(const char *path, size_t *length) {
    FILE *file = fopen(path, "rb");
    if (!file || fseek(file, 0, SEEK_END)) fail(path);
    *length = (size_t)ftell(file);
    rewind(file);
    uint8_t *bytes = calloc(*length + 64, 1);
    if (!bytes || fread(bytes, 1, *length, file) != *length) fail(path);
    fclose(file);
    return bytes;
}
#endif
