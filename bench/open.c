/* Opens a table once, as one way does it, and probes it once; prints the wall and processor time of both together and the private
 * memory that they take: open FOLDER NAME front|folders|seen|checked|fathom. The table is one of tables.py; seen and checked are
 * for KQRBNvK alone. */
#include "bench.h"
#include "szg.h"
#ifdef FATHOM
#include "fathom.h"
#endif
#include <fcntl.h>
#include <sys/mman.h>
#include <sys/stat.h>
#include <unistd.h>

/* The side to move, which is White, has no captures. */
static const szg_man MEN[] = {{SZG_KING, SZG_WHITE, 4}, {SZG_QUEEN, SZG_WHITE, 3}, {SZG_ROOK, SZG_WHITE, 0},
                              {SZG_BISHOP, SZG_WHITE, 2}, {SZG_KNIGHT, SZG_WHITE, 1}, {SZG_KING, SZG_BLACK, 60}};
/* The numbers of values of KQRBNvK and of each of its blocks; of STEP blocks one is looked at. */
static const uint64_t SIZE = 31332ull * 61 * 60 * 59, HELD = 404, STEP = 512;

static const char *name;
static szg_man men[SZG_MAX_MEN];
static size_t men_count;

static void choose_men(void) {
    for (const char *letter = name; *letter != 'v'; letter++) men[men_count++] = MEN[strchr("KQRBN", *letter) - "KQRBN"];
    men[men_count++] = MEN[5];
}

/* The memory of this process that is no file's, in KB. */
static long private_memory(void) {
    char line[256];
    long size = -1;
    FILE *file = fopen("/proc/self/smaps_rollup", "r");
    while (file && fgets(line, sizeof line, file) && sscanf(line, "Anonymous: %ld", &size) != 1) {}
    if (size < 0) fail("/proc/self/smaps_rollup");
    fclose(file);
    return size;
}

static const uint8_t *mapped(const char *folder, size_t *length) {
    char path[4096];
    struct stat about;
    snprintf(path, sizeof path, "%s/%s.rtbw", folder, name);
    int file = open(path, O_RDONLY);
    if (file < 0 || fstat(file, &about)) fail(path);
    *length = (size_t)about.st_size;
    const uint8_t *bytes = mmap(NULL, *length, PROT_READ, MAP_SHARED, file, 0);
    if (bytes == MAP_FAILED) fail("no map");
    close(file);
    return bytes;
}

static void open_by_front(const char *folder) {
    size_t length;
    szg_front front = SZG_NO_FRONT;
    szg_answer answer;
    szg_bad_block bad;
    int64_t outcome = 0;
    const uint8_t *bytes = mapped(folder, &length);
    if (szg_open_front(name, strlen(name), false, bytes, length, &front, &answer) != SZG_DONE ||
        szg_front_probe(&front, bytes, length, men, men_count, SZG_WHITE, 0, &outcome, &bad) != SZG_DONE)
        fail("the table is refused");
}

static szg_folders *folders;

static bool is_probed(void) {
    int8_t class_of_position = 0;
    szg_missing missing;
    return szg_folders_wdl(folders, men, men_count, SZG_WHITE, SZG_NO_SQUARE, &class_of_position, &missing) == SZG_DONE;
}

static void open_by_folders(const char *folder) {
    if (szg_open_folders(folder, &folders) != SZG_DONE || !is_probed()) fail("the table is refused");
}

/* Looks at blocks of the whole table, so that what is kept of blocks is in memory, as if each was seen. In such a block it finds a
 * value whose placement is a position, if there is one: Black's king may be in check. */
static void see_blocks(const char *folder) {
    size_t length;
    uint8_t mover;
    szg_front front = SZG_NO_FRONT;
    szg_answer answer;
    const uint8_t *bytes = mapped(folder, &length);
    open_by_folders(folder);
    if (szg_open_front(name, strlen(name), false, bytes, length, &front, &answer) != SZG_DONE) fail("the table is refused");
    for (uint64_t block = 0; block <= (SIZE - 1) / HELD; block += STEP)
        for (uint64_t i = block * HELD; i < SIZE && i < (block + 1) * HELD; i++)
            if (szg_front_placement(&front, 0, 0, i, men, SZG_MAX_MEN, &men_count, &mover) == SZG_DONE && is_probed()) break;
    szg_close_front(&front);
}

/* Every check is made, and the blocks stay in the file. */
static void open_checked(const char *folder) {
    size_t length;
    szg_front front = SZG_NO_FRONT;
    szg_answer answer;
    szg_byte_range range;
    szg_bad_block bad;
    uint16_t value = 9;
    const uint8_t *bytes = mapped(folder, &length);
    if (szg_check(name, strlen(name), false, bytes, length, &answer) != SZG_DONE ||
        szg_open_front(name, strlen(name), false, bytes, length, &front, &answer) != SZG_DONE)
        fail("the table is refused");
    uint64_t state = 1;
    for (int i = 0; i < 2; i++) {
        uint64_t index = ((uint64_t)draw(&state) << 16 | draw(&state) >> 15) % SIZE;
        if (szg_front_find(&front, 0, 0, index, &range) != SZG_DONE ||
            szg_front_value(&front, 0, 0, index, bytes + range.offset, range.count, &value, &bad) != SZG_DONE || value != (index % 2 ? 2 : 4))
            fail("the value is wrong");
    }
}

#ifdef FATHOM
static void open_by_fathom(const char *folder) {
    int success = 1;
    if (!tb_init(folder)) fail("Fathom reads no tables there");
    fathom_position position = fathom_of(men, (int)men_count, SZG_WHITE);
    probe_table(&position, 0, &success, FATHOM_WDL);
    if (success != 1) fail("Fathom doesn't read the table");
}
#endif

static const struct {
    const char *word, *title;
    void (*open)(const char *folder);
} WAYS[] = {
    {"front", "szg_open_front and a probe", open_by_front},
    {"folders", "szg_open_folders and szg_folders_wdl", open_by_folders},
    {"seen", "szg_folders_wdl all over the table", see_blocks},
    {"checked", "szg_check, every check, szg_open_front and two values", open_checked},
#ifdef FATHOM
    {"fathom", "tb_init of Fathom and a probe", open_by_fathom},
#endif
};

int main(int count, char **words) {
    for (size_t i = 0; i < sizeof WAYS / sizeof *WAYS && count == 4; i++) {
        if (strcmp(words[3], WAYS[i].word)) continue;
        name = words[2];
        choose_men();
        long held = private_memory();
        double wall = clock_seconds(CLOCK_MONOTONIC), processor = clock_seconds(CLOCK_PROCESS_CPUTIME_ID);
        WAYS[i].open(words[1]);
        wall = clock_seconds(CLOCK_MONOTONIC) - wall;
        processor = clock_seconds(CLOCK_PROCESS_CPUTIME_ID) - processor;
        printf("%s, %s: %.3f ms, %.3f ms of processor time, %.3f MB of private memory\n", name, WAYS[i].title, 1e3 * wall, 1e3 * processor,
               (double)(private_memory() - held) / 1024);
        return 0;
    }
    return 3;
}
