/* Times look-ups by 1, 2 and 4 threads that share the table of KQRvK in a folder, and probes of positions by threads that share
 * the folder: threads FOLDER. The times are processor time a look-up, the least of fifteen rounds. */
#include "placements.h"
#include <pthread.h>

enum { LOOK_UPS = 1 << 17, ROUNDS = 15, MOST = 4 };

/* How a table is opened and shared by threads, and a thread's look-up. */
struct way {
    const char *title;
    void (*open)(int thread);
    void (*share)(int thread);
    uint16_t (*look_up)(int thread, size_t number);
};

/* Each thread's handles, in a cache line of their own: a call writes to its handle. */
static struct {
    _Alignas(64) szg_table table;
    szg_front front;
    szg_folders *folders;
} handles[MOST] = {{SZG_NO_TABLE, SZG_NO_FRONT, NULL}};
static const char *folder;
static uint8_t *file;
static size_t length;
static uint32_t indexes[LOOK_UPS];
static struct position {
    szg_man men[SZG_MAX_MEN];
    uint8_t mover;
} positions[LOOK_UPS];
static int men_count;
static uint64_t due; /* the mix of what all look-ups find; 0 before the first one */
static double times[MOST];
static const struct way *way;
static pthread_barrier_t start;

static void require(uint32_t status, const char *what) {
    if (status != SZG_DONE) fail(what);
}

static void open_handle(int thread) {
    szg_answer answer;
    require(szg_open("KQRvK", 5, false, file, length, &handles[thread].table, &answer), "the table is refused");
}

static void open_front(int thread) {
    szg_answer answer;
    require(szg_open_front("KQRvK", 5, false, file, length, &handles[thread].front, &answer), "the front is refused");
}

static void open_folders(int thread) {
    szg_close_folders(handles[thread].folders);
    require(szg_open_folders(folder, &handles[thread].folders), "no folders");
}

static void share_handle(int thread) { require(szg_share(&handles[0].table, &handles[thread].table), "the table is not shared"); }
static void share_front(int thread) { require(szg_share_front(&handles[0].front, &handles[thread].front), "the front is not shared"); }
static void share_folders(int thread) { require(szg_share_folders(handles[0].folders, &handles[thread].folders), "the folders aren't shared"); }

static uint16_t get_by_handle(int thread, size_t number) {
    uint16_t value = 0;
    szg_get(&handles[thread].table, 0, 0, indexes[number], &value);
    return value;
}

static uint16_t get_by_front(int thread, size_t number) {
    uint16_t value = 0;
    szg_bad_block bad;
    szg_front_get(&handles[thread].front, file, length, 0, 0, indexes[number], &value, &bad);
    return value;
}

/* The class plus 2; more if the men are no position. */
static uint16_t probe_position(int thread, size_t number) {
    int8_t class_of_position = 100;
    szg_missing missing;
    const struct position *p = &positions[number];
    szg_folders_wdl(handles[thread].folders, p->men, (size_t)men_count, p->mover, SZG_NO_SQUARE, &class_of_position, &missing);
    return (uint16_t)(class_of_position + 2);
}

static uint64_t mix_of_all(int thread) {
    uint64_t mix = 0;
    for (size_t k = 0; k < LOOK_UPS; k++) mix = 31 * mix + way->look_up(thread, k);
    return mix;
}

/* One round of look-ups; returns its processor time a look-up in nanoseconds. */
static double look_all_up(int thread) {
    double t0 = clock_seconds(CLOCK_THREAD_CPUTIME_ID);
    uint64_t mix = mix_of_all(thread);
    double time = clock_seconds(CLOCK_THREAD_CPUTIME_ID) - t0;
    if (mix != due) fail("the values differ");
    return time / LOOK_UPS * 1e9;
}

static void *run(void *number) {
    int thread = (int)(intptr_t)number;
    pthread_barrier_wait(&start);
    times[thread] = look_all_up(thread);
    return NULL;
}

/* The mean time of `count` threads in one round. */
static double time_threads(int count) {
    pthread_t threads[MOST];
    double sum = 0;
    pthread_barrier_init(&start, NULL, (unsigned)count);
    for (int i = 0; i < count; i++)
        if (pthread_create(&threads[i], NULL, run, (void *)(intptr_t)i)) fail("no thread");
    for (int i = 0; i < count; i++) pthread_join(threads[i], NULL), sum += times[i];
    pthread_barrier_destroy(&start);
    return sum / count;
}

static void time_way(const struct way *timed) {
    static const int counts[] = {1, 2, 4};
    double threads[3] = {0};
    way = timed;
    way->open(0);
    for (int i = 1; i < MOST; i++) way->share(i);
    if (due == 0) due = mix_of_all(0);
    for (int round = 0; round < ROUNDS; round++)
        for (int i = 0; i < 3; i++) least(&threads[i], time_threads(counts[i]));
    printf("%s: 1, 2, 4 threads %.1f, %.1f, %.1f ns a look-up, ratio of 4 to 1 %.2f\n", way->title, threads[0], threads[1], threads[2],
           threads[2] / threads[0]);
}

/* Draws the indexes, and as many positions. */
static void draw_all(void) {
    uint64_t state = 1, size = 0;
    szg_positions(&handles[0].table, 0, 0, &size);
    for (size_t k = 0; k < LOOK_UPS; k++) indexes[k] = draw(&state) % (uint32_t)size;
    for (size_t k = 0; k < LOOK_UPS; k++)
        do {
            men_count = draw_men("KQRvK", positions[k].men, &state);
            positions[k].mover = draw(&state) & 1;
        } while (probe_position(0, k) > 4);
}

int main(int count, char **words) {
    char path[4096];
    if (count != 2) return fprintf(stderr, "threads FOLDER\n"), 2;
    folder = words[1];
    snprintf(path, sizeof path, "%s/KQRvK.rtbw", folder);
    file = bytes_of(path, &length);
    open_handle(0);
    open_folders(0);
    draw_all();
    time_way(&(struct way){"szg_get, a handle each", open_handle, share_handle, get_by_handle});
    time_way(&(struct way){"szg_front_get, a handle each", open_front, share_front, get_by_front});
    due = 0;
    time_way(&(struct way){"szg_folders_wdl, a handle each", open_folders, share_folders, probe_position});
    return 0;
}
