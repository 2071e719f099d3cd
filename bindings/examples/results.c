/* Answers positions by the tables of folders, on four threads: results FOLDERS <FENS   (paths separated by ':'; a FEN in each line)
 * Prints a line for each: the FEN, the class with the fifty-move counter (2 win to -2 loss), the DTZ and the best move, with
 * tabs between; or the FEN and why there is no result. The status is 1 if that was so for any. */
#include "szg.h"
#include <pthread.h>
#include <stdio.h>
#include <stdlib.h>
#include <string.h>

enum { THREADS = 4, FENS = 4096, ROOM = 200 };
static szg_folders *folders;
static char fens[FENS][ROOM], lines[FENS][2 * ROOM];
static int count;
static _Atomic bool has_all = true;

static bool answer(szg_folders *own, const char *fen, char *line) {
    szg_position p;
    szg_distance distance;
    szg_missing missing = {"", false, 0, 0};
    szg_move moves[SZG_MAX_MOVES];
    size_t move_count = 0;
    char text[SZG_TEXT_SIZE] = "-";
    uint32_t status = szg_read_fen(fen, strlen(fen), &p);
    if (status == SZG_DONE)
        status = szg_folders_dtz(own, p.men, p.count, p.mover, p.en_passant, p.counter, &distance, &missing);
    if (status == SZG_DONE)
        status = szg_folders_moves(own, p.men, p.count, p.mover, p.en_passant, p.counter, moves, SZG_MAX_MOVES, &move_count, &missing);
    if (status != SZG_DONE) {
        szg_status_text(status, text, sizeof text);
        return sprintf(line, "%s\t%s %s%s", fen, text, missing.name, missing.dtz ? " dtz" : ""), false;
    }
    if (move_count > 0)
        sprintf(text, "%c%d%c%d%.1s", 'a' + moves->from % 8, 1 + moves->from / 8, 'a' + moves->to % 8, 1 + moves->to / 8, &"\0\0nbrq"[moves->promotion]);
    return sprintf(line, "%s\t%d\t%lld\t%s", fen, distance.class_of_position, (long long)distance.dtz, text), true;
}

/* Answers every fourth FEN, by a handle of the thread's own. */
static void *run(void *first) {
    szg_folders *own;
    if (szg_share_folders(folders, &own) != SZG_DONE) exit(71);
    for (int i = (int)(intptr_t)first; i < count; i += THREADS)
        if (!answer(own, fens[i], lines[i])) has_all = false;
    szg_close_folders(own);
    return NULL;
}

int main(int argc, char **argv) {
    pthread_t threads[THREADS];
    if (argc != 2 || szg_open_folders(argv[1], &folders) != SZG_DONE) return 64;
    do {
        for (count = 0; count < FENS && scanf(" %199[^\n]", fens[count]) == 1;) count++;
        for (intptr_t i = 0; i < THREADS; i++)
            if (pthread_create(&threads[i], NULL, run, (void *)i) != 0) return 71;
        for (int i = 0; i < THREADS; i++) pthread_join(threads[i], NULL);
        for (int i = 0; i < count; i++) puts(lines[i]);
    } while (count == FENS);
    szg_close_folders(folders);
    return has_all ? 0 : 1;
}
