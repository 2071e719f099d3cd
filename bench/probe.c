/* Times probes by the C library and by Fathom, on the same files and the same random positions: probe FOLDER NAME [PLAN]. Each line
 * has the least processor time of several rounds: of what one table in memory stores, by its handle and by its front; of a position's
 * class, with its captures, by mapped files, once each block was seen, and at the first look at each block of the WDL table; of its
 * DTZ, and of all its moves. Both sides must find the same. Positions for which FOLDER lacks a table are left out. Without Fathom
 * (FATHOM is not defined) the C library is timed alone. */
#include "placements.h"
#ifdef FATHOM
#include "fathom.h"
#define PEER(call, probe) {call, probe, open_fathom}
#else
#define PEER(call, probe) {NULL, NULL, NULL}
#endif

/* Before the first looks, WARM positions open the tables. */
enum { POSITIONS = 1 << 16, WITH_MOVES = 1 << 9, WARM = 64, ROUNDS = 15, MOST_DRAWN = 100 * POSITIONS };

struct position {
    szg_man men[SZG_MAX_MEN];
    uint8_t mover;
    int8_t wdl;
#ifdef FATHOM
    fathom_position fathom;
#endif
};
struct list {
    int count;
    struct position positions[POSITIONS];
};

static const char *folder;
static szg_folders *folders;
static int men_count;
static struct list all, with_number, first_looks, with_moves;

/* The tables of the name in memory, WDL and DTZ, each with its front and the bytes of its file. */
static struct {
    szg_table table;
    szg_front front;
    uint8_t *bytes;
    size_t length;
} tables[2] = {{SZG_NO_TABLE, SZG_NO_FRONT, NULL, 0}, {SZG_NO_TABLE, SZG_NO_FRONT, NULL, 0}};

static void open_tables(const char *name) {
    char path[4096];
    szg_answer answer;
    for (int dtz = 0; dtz < 2; dtz++) {
        snprintf(path, sizeof path, "%s/%s.rtb%c", folder, name, dtz ? 'z' : 'w');
        tables[dtz].bytes = bytes_of(path, &tables[dtz].length);
        if (szg_open(name, strlen(name), dtz, tables[dtz].bytes, tables[dtz].length, &tables[dtz].table, &answer) != SZG_DONE ||
            szg_open_front(name, strlen(name), dtz, tables[dtz].bytes, tables[dtz].length, &tables[dtz].front, &answer) != SZG_DONE)
            fail(path);
    }
}

static void open_szg(void) {
    szg_close_folders(folders);
    if (szg_open_folders(folder, &folders) != SZG_DONE) fail(folder);
}

/* ---- What the calls say of a position; a number that is no result is refused by the comparison */
static int64_t stored(const struct position *p, bool dtz) {
    int64_t outcome = 1000;
    szg_probe(&tables[dtz].table, p->men, (size_t)men_count, p->mover, p->wdl, &outcome);
    return outcome;
}
static int64_t stored_by_front(const struct position *p, bool dtz) {
    szg_bad_block bad;
    int64_t outcome = 1000;
    szg_front_probe(&tables[dtz].front, tables[dtz].bytes, tables[dtz].length, p->men, (size_t)men_count, p->mover, p->wdl, &outcome, &bad);
    return outcome;
}
static int64_t stored_wdl(const struct position *p) { return stored(p, false); }
static int64_t stored_dtz(const struct position *p) { return stored(p, true); }
static int64_t front_wdl(const struct position *p) { return stored_by_front(p, false); }
static int64_t front_dtz(const struct position *p) { return stored_by_front(p, true); }
static int64_t szg_wdl(const struct position *p) {
    szg_missing missing;
    int8_t class_of_position = 100;
    szg_folders_wdl(folders, p->men, (size_t)men_count, p->mover, SZG_NO_SQUARE, &class_of_position, &missing);
    return class_of_position + 2;
}
static int64_t szg_dtz(const struct position *p) {
    szg_missing missing;
    szg_distance distance = {0, 1000};
    szg_folders_dtz(folders, p->men, (size_t)men_count, p->mover, SZG_NO_SQUARE, 0, &distance, &missing);
    return llabs(distance.dtz);
}
static int64_t szg_moves(const struct position *p) {
    szg_missing missing;
    szg_move moves[SZG_MAX_MOVES];
    size_t count = 0;
    szg_folders_moves(folders, p->men, (size_t)men_count, p->mover, SZG_NO_SQUARE, 0, moves, SZG_MAX_MOVES, &count, &missing);
    return (int64_t)count;
}
#ifdef FATHOM
static void open_fathom(void) {
    if (!tb_init(folder)) fail("Fathom reads no tables there");
}
static int64_t fathom_stored_wdl(const struct position *p) {
    int success = 1;
    return probe_table(&p->fathom, 0, &success, FATHOM_WDL);
}
static int64_t fathom_stored_dtz(const struct position *p) {
    int success = 1;
    return probe_table(&p->fathom, p->wdl, &success, FATHOM_DTZ);
}
static int64_t fathom_class(const struct position *p) { return fathom_wdl(&p->fathom); }
static int64_t fathom_dtz(const struct position *p) { return TB_GET_DTZ(fathom_root(&p->fathom, NULL)); }
static int64_t fathom_moves(const struct position *p) {
    unsigned results[TB_MAX_MOVES];
    int64_t count = 0;
    fathom_root(&p->fathom, results);
    while (results[count] != TB_RESULT_FAILED) count++;
    return count;
}
#endif

/* ---- Lists of positions */
static void draw_positions(const char *name) {
    uint64_t state = 1;
    for (int drawn = 0; all.count < POSITIONS; drawn++) {
        struct position p = {.mover = draw(&state) & 1};
        if (drawn == MOST_DRAWN) fail("too few of the table's positions have results");
        men_count = draw_men(name, p.men, &state);
        if (szg_wdl(&p) > 4) continue;
#ifdef FATHOM
        p.fathom = fathom_of(p.men, men_count, p.mover);
#endif
        p.wdl = (int8_t)stored_wdl(&p);
        all.positions[all.count++] = p;
        if (stored_dtz(&p) < 1000) with_number.positions[with_number.count++] = p;
        if (with_moves.count < WITH_MOVES && szg_moves(&p) > 0) with_moves.positions[with_moves.count++] = p;
    }
}

/* Lists positions in blocks of the WDL table that none before them is in. */
static void list_first_looks(void) {
    szg_spot spot;
    szg_byte_range range;
    uint8_t *is_seen = calloc(tables[0].length, 1);
    if (!is_seen) fail("no memory");
    for (int i = 0; i < all.count; i++) {
        const struct position *p = &all.positions[i];
        if (szg_front_index(&tables[0].front, p->men, (size_t)men_count, p->mover, &spot) != SZG_DONE ||
            szg_front_find(&tables[0].front, spot.part, spot.side, spot.index, &range) != SZG_DONE)
            fail("a position isn't in the table");
        if (i >= WARM && !is_seen[range.offset]) first_looks.positions[first_looks.count++] = *p;
        is_seen[range.offset] = 1;
    }
    free(is_seen);
}

/* ---- Times */
struct side {
    const char *call;
    int64_t (*probe)(const struct position *p);
    void (*open)(void);
};

static int64_t sum_of(const struct list *list, int count, const struct side *side) {
    int64_t sum = 0;
    for (int i = 0; i < count; i++) sum = 31 * sum + side->probe(&list->positions[i]);
    return sum;
}

/* Keeps the least time of a position, in nanoseconds, and returns the sum of the results. */
static int64_t time_once(const struct list *list, const struct side *side, bool is_first_look, double *best) {
    if (is_first_look) {
        side->open();
        sum_of(&all, WARM, side);
    }
    double t0 = now();
    int64_t sum = sum_of(list, list->count, side);
    least(best, (now() - t0) / list->count * 1e9);
    return sum;
}

static const struct {
    const char *what;
    const struct list *list;
    bool is_first_look;
    struct side szg, fathom;
} ROWS[] = {
    {"stored wdl", &all, false, {"szg_probe", stored_wdl, NULL}, PEER("probe_table", fathom_stored_wdl)},
    {"stored wdl", &all, false, {"szg_front_probe", front_wdl, NULL}, PEER("probe_table", fathom_stored_wdl)},
    {"stored dtz", &with_number, false, {"szg_probe", stored_dtz, NULL}, PEER("probe_table", fathom_stored_dtz)},
    {"stored dtz", &with_number, false, {"szg_front_probe", front_dtz, NULL}, PEER("probe_table", fathom_stored_dtz)},
    {"wdl", &all, false, {"szg_folders_wdl", szg_wdl, open_szg}, PEER("tb_probe_wdl", fathom_class)},
    {"first look", &first_looks, true, {"szg_folders_wdl", szg_wdl, open_szg}, PEER("tb_probe_wdl", fathom_class)},
    {"dtz", &with_moves, false, {"szg_folders_dtz", szg_dtz, open_szg}, PEER("tb_probe_root", fathom_dtz)},
    {"moves", &with_moves, false, {"szg_folders_moves", szg_moves, open_szg}, PEER("tb_probe_root with its moves", fathom_moves)},
};

int main(int count, char **words) {
    if (count != 3 && count != 4) return fprintf(stderr, "probe FOLDER NAME [PLAN]\n"), 2;
    const char *name = words[2];
    folder = words[1];
    open_szg();
    open_tables(name);
#ifdef FATHOM
    open_fathom();
#endif
    draw_positions(name);
    list_first_looks();
    for (size_t i = 0; i < sizeof ROWS / sizeof *ROWS; i++) {
        if (ROWS[i].list->count == 0) continue;
        double szg = 0, fathom = 0;
        for (int round = 0; round < ROUNDS; round++) {
            int64_t sum = time_once(ROWS[i].list, &ROWS[i].szg, ROWS[i].is_first_look, &szg);
            if (ROWS[i].fathom.probe && time_once(ROWS[i].list, &ROWS[i].fathom, ROWS[i].is_first_look, &fathom) != sum) fail("the results differ");
        }
        printf("%s%s %s: ", name, count == 4 ? words[3] : "", ROWS[i].what);
        if (fathom > 0) printf("ratio %.2f, ", szg / fathom);
        printf("%s %.1f ns", ROWS[i].szg.call, szg);
        if (fathom > 0) printf(", %s of Fathom %.1f ns", ROWS[i].fathom.call, fathom);
        printf(", %d positions\n", ROWS[i].list->count);
    }
    szg_close_folders(folders);
    for (int dtz = 0; dtz < 2; dtz++) szg_close(&tables[dtz].table), szg_close_front(&tables[dtz].front), free(tables[dtz].bytes);
    return 0;
}
