/* Four threads probe random positions of three men by the tables of a folder, each with a handle of its own, and all open the
 * files: folders FOLDER [POSITIONS]. They must find the same; a class must be that of its distance, the first move must give it, and
 * Fathom's interface must return it. (checks/calls.txt has what is refused, and what is passed over.) The status is 0 if all is so. */
#define _GNU_SOURCE
#include "trying.h"
#include "tbprobe.h"
#include <pthread.h>
#include <unistd.h>

enum { THREADS = 4 };
static int positions = 20000;
static szg_folders *folders;
static uint64_t found[THREADS];

/* The class by Fathom's interface. */
static int class_by_fathom(const szg_man *men, uint8_t mover) {
    uint64_t colors[2] = {0}, kinds[7] = {0};
    for (int i = 0; i < 3; i++) colors[men[i].color] |= 1ull << men[i].square, kinds[men[i].kind] |= 1ull << men[i].square;
    return (int)tb_probe_wdl(colors[0], colors[1], kinds[SZG_KING], kinds[SZG_QUEEN], kinds[SZG_ROOK], kinds[SZG_BISHOP], kinds[SZG_KNIGHT], kinds[SZG_PAWN], 0, 0, 0, mover == SZG_WHITE) - 2;
}

static const char *probe(szg_folders *mine, unsigned *seed, uint64_t *sum) {
    szg_man men[] = {{SZG_KING, SZG_WHITE, 0}, {(uint8_t)(1 + rand_r(seed) % 5), (uint8_t)(rand_r(seed) % 2), 0}, {SZG_KING, SZG_BLACK, 0}};
    for (int i = 0; i < 3; i++) men[i].square = (uint8_t)(rand_r(seed) % 64);
    uint8_t mover = (uint8_t)(rand_r(seed) % 2);
    int8_t class;
    szg_missing missing;
    szg_distance distance;
    szg_move moves[SZG_MAX_MOVES];
    size_t count;
    uint32_t status = szg_folders_wdl(mine, men, 3, mover, SZG_NO_SQUARE, &class, &missing);
    if (status == SZG_IN_CHECK || status == SZG_SAME_SQUARE || status == SZG_PAWN_RANK) return NULL;
    if (status != SZG_DONE) return "class";
    if (class_by_fathom(men, mover) != class) return "class by Fathom's interface";
    if (szg_folders_dtz(mine, men, 3, mover, SZG_NO_SQUARE, 0, &distance, &missing) != SZG_DONE) return "distance";
    if (distance.class_of_position != class) return "class of the distance";
    if (szg_folders_moves(mine, men, 3, mover, SZG_NO_SQUARE, 0, moves, SZG_MAX_MOVES, &count, &missing) != SZG_DONE) return "moves";
    if (count > 0 && moves->class_of_position != class) return "class of the first move";
    *sum = *sum * 31 + (uint64_t)distance.dtz + count;
    return NULL;
}

static void *run(void *number) {
    unsigned seed = 7;
    szg_folders *mine;
    uint8_t most_men;
    const char *why = szg_share_folders(folders, &mine) == SZG_DONE ? NULL : "share";
    if (why == NULL && (szg_folders_list(mine, NULL, 0, &most_men) != 10 || most_men != 3)) why = "list";
    for (int i = 0; i < positions && why == NULL; i++) {
        szg_limit_folders(mine, 15);
        why = probe(mine, &seed, (uint64_t *)number);
    }
    szg_close_folders(mine);
    return (void *)(uintptr_t)why;
}

/* A folder with a WDL table's file of six men, which are then the most men. */
static void try_six_men(const char *samples) {
    char made[] = "/tmp/szg_folders_XXXXXX", path[64], paths[4096];
    if (mkdtemp(made) == NULL) perror(made), exit(2);
    snprintf(path, sizeof path, "%s/KQRvKBN.rtbw", made), snprintf(paths, sizeof paths, "%s:%s", made, samples);
    FILE *six = fopen(path, "w");
    if (six == NULL || fclose(six) != 0) perror(path), exit(2);
    want("six men by Fathom's interface", tb_init(paths) && TB_LARGEST == 6, true);
    tb_free();
    unlink(path), rmdir(made);
}

int main(int count, char **words) {
    pthread_t threads[THREADS];
    pthread_attr_t small;
    char paths[4096];
    if (count != 2 && count != 3) return fprintf(stderr, "folders FOLDER [POSITIONS]\n"), 2;
    if (count == 3) positions = atoi(words[2]);
    file = "folders";
    for (int i = 0; i < 3000; i++) want("no tables", tb_init(i % 2 ? "" : "/nowhere") && TB_LARGEST == 0, true);
    snprintf(paths, sizeof paths, "/nowhere:%s", words[1]);
    want("open", szg_open_folders(paths, &folders), SZG_DONE);
    want("by Fathom's interface", tb_init(paths) && TB_LARGEST == 3, true);
    pthread_attr_init(&small);
#ifndef __SANITIZE_THREAD__
    /* a call on folders uses less than 56 KB */
    pthread_attr_setstacksize(&small, 64 << 10);
#endif
    for (int i = 0; i < THREADS; i++) pthread_create(&threads[i], &small, run, &found[i]);
    for (int i = 0; i < THREADS; i++) {
        void *why;
        pthread_join(threads[i], &why);
        want(why ? (const char *)why : "thread", why == NULL, 1);
        want("the same", found[i] == found[0], 1);
    }
    szg_close_folders(folders);
    tb_free();
    try_six_men(words[1]);
    return ended();
}
