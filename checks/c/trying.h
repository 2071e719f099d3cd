/* What the tests in C share: a table's file that is tried, wanted numbers, and how a test ends. */
#ifndef TRYING_H
#define TRYING_H
#include "szg.h"
#include <stdio.h>
#include <stdlib.h>
#include <string.h>

/* The file that is tried, its material and its kind; calls on whole files take it by OF_FILE. */
static const char *file, *name;
static bool dtz;
static uint8_t bytes[1 << 20];
static size_t length;
#define OF_FILE name, strlen(name), dtz, bytes, length
static szg_answer answer;
static int failed;
/* A handle of its table, and one of its front. */
static szg_table table = SZG_NO_TABLE;
static szg_front front = SZG_NO_FRONT;

enum sample { CONSTANT, UNPAIRED, PAIRED, MAPPED, SAMPLES };
static const struct { const char *file, *name; bool dtz; } samples[SAMPLES] = {
    {"knvk_wdl_constant.rtbw", "KNvK", false}, {"kqvk_wdl_unpaired.rtbw", "KQvK", false},
    {"kqvk_wdl_paired.rtbw", "KQvK", false}, {"kpvk_dtz_mapped.rtbz", "KPvK", true},
};

static inline void want(const char *what, int64_t got, int64_t wanted) {
    if (got != wanted) { printf("%s: %s: %lld, not %lld\n", file, what, (long long)got, (long long)wanted); failed = 1; }
}

static inline void take(const char *its_file, const char *its_name, bool is_dtz, size_t n) {
    file = its_file, name = its_name, dtz = is_dtz, length = n;
}

static inline void hold(void) {
    want("open", szg_open(OF_FILE, &table, &answer), SZG_DONE);
    want("open front", szg_open_front(OF_FILE, &front, &answer), SZG_DONE);
}

static inline void let_go(void) { szg_close(&table), szg_close_front(&front); }

static inline void load(const char *folder, const char *its_file, const char *its_name, bool is_dtz) {
    char path[4096];
    snprintf(path, sizeof path, "%s/%s", folder, its_file);
    FILE *f = fopen(path, "rb");
    if (!f) { perror(path); exit(2); }
    take(its_file, its_name, is_dtz, fread(bytes, 1, sizeof bytes, f));
    fclose(f);
}

static inline void load_sample(const char *folder, enum sample i) { load(folder, samples[i].file, samples[i].name, samples[i].dtz); }

static inline void each_sample(const char *folder, void (*attempt)(void)) {
    for (int i = 0; i < SAMPLES; i++) load_sample(folder, i), attempt();
}

/* Makes each look-up at an index of part a, side 0, by two handles, and writes each text. */
static inline void look_up_by_each_call(szg_table *of, szg_front *to, uint64_t i) {
    char text[SZG_TEXT_SIZE];
    szg_man men[SZG_MAX_MEN];
    size_t count = 0;
    uint8_t mover = 0, bits;
    uint16_t value = 0;
    uint32_t number;
    uint64_t size;
    int64_t outcome;
    szg_spot spot;
    szg_byte_range range = {0, 0};
    szg_bad_block bad;
    want("get", szg_get(of, 0, 0, i, &value), SZG_DONE);
    want("front get", szg_front_get(to, bytes, length, 0, 0, i, &value, &bad), SZG_DONE);
    want("front find", szg_front_find(to, 0, 0, i, &range), SZG_DONE);
    want("front value", szg_front_value(to, 0, 0, i, bytes + range.offset, range.count, &value, &bad), SZG_DONE);
    want("placement", szg_placement(of, 0, 0, i, men, SZG_MAX_MEN, &count, &mover), SZG_DONE);
    want("front placement", szg_front_placement(to, 0, 0, i, men, SZG_MAX_MEN, &count, &mover), SZG_DONE);
    want("index", szg_index(of, men, count, mover, &spot), SZG_DONE);
    want("front index", szg_front_index(to, men, count, mover, &spot), SZG_DONE);
    want("size", szg_positions(of, 0, 0, &size), SZG_DONE);
    want("front size", szg_front_size(to, 0, 0, &size), SZG_DONE);
    want("front span", szg_front_span(to, &bits), SZG_DONE);
    szg_probe(of, men, count, mover, 2, &outcome), szg_front_probe(to, bytes, length, men, count, mover, 2, &outcome, &bad);
    szg_number(of, 0, 2, value, &number), szg_front_number(to, 0, 2, value, &number);
    szg_version(text, sizeof text), szg_status_text(SZG_MEMORY, text, sizeof text), szg_reason_text(SZG_WORD, text, sizeof text);
}

static inline const char *folder_of(int count, char **words) { return count > 1 ? words[1] : "data"; }

static inline int ended(void) {
    if (!failed) puts("all as expected");
    return failed;
}
#endif
