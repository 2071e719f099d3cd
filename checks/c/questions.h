/* What full_probes.c and fathom.c share: positions, as samples/solve writes them and as FENs, their images, and Fathom's probes. */
#ifndef QUESTIONS_H
#define QUESTIONS_H
#include <ctype.h>
#include <stdio.h>
#include <stdlib.h>
#include <string.h>
#include <tbprobe.h>

/* A board has a letter on each square, as in a FEN, or 0; a1 is square 0, b1 is 1, h8 is 63. */
enum { SQUARES = 64, NO_SQUARE = 64 };

/* Whether the man on `from` attacks `to`, on a board of letters by square. */
static inline int attacks(const char *board, int from, int to) {
    int files = (to & 7) - (from & 7), ranks = (to >> 3) - (from >> 3), letter = toupper((unsigned char)board[from]);
    if (letter == 'P') return abs(files) == 1 && ranks == (board[from] == 'P' ? 1 : -1);
    if (letter == 'N') return files * files + ranks * ranks == 5;
    if (letter == 'K') return abs(files) <= 1 && abs(ranks) <= 1;
    int is_straight = !files || !ranks, is_diagonal = abs(files) == abs(ranks);
    if (from == to || !((is_straight && letter != 'B') || (is_diagonal && letter != 'R'))) return 0;
    int step = 8 * ((ranks > 0) - (ranks < 0)) + (files > 0) - (files < 0);
    for (from += step; from != to && !board[from]; from += step) {}
    return from == to;
}

/* Whether a king is attacked, not counting a man on `aside`. */
static inline int is_attacked(const char *board, char king, int aside) {
    int to = (int)((const char *)memchr(board, king, SQUARES) - board);
    for (int from = 0; from < SQUARES; from++)
        if (board[from] && from != aside && !islower((unsigned char)board[from]) != (king == 'K') && attacks(board, from, to)) return 1;
    return 0;
}

/* Writes the first field of a FEN; returns its end. */
static inline char *write_board(const char *board, char *out) {
    for (int rank = 7, gap = 0; rank >= 0; rank--) {
        for (const char *man = board + 8 * rank; man < board + 8 * rank + 8; man++) {
            if (!*man) { gap++; continue; }
            if (gap) *out++ = (char)('0' + gap);
            *out++ = *man, gap = 0;
        }
        if (gap) *out++ = (char)('0' + gap);
        if (rank) *out++ = '/';
        gap = 0;
    }
    return out;
}

enum { MEN = 6, SHOWN = 20 };
struct question { int count, mover, passed, counter, class, dtz, has_pawns, square[MEN]; char letter[MEN]; };
static long asked, mates, stalemates, differences;
static const char LETTERS[] = "PNBRQK";

/* Reads a line "w|b PASSED CLASS DTZ MEN.." of standard input. Returns 0 at its end. */
static inline int read_question(struct question *q) {
    char line[256], mover;
    int read;
    if (!fgets(line, sizeof line, stdin)) return 0;
    if (sscanf(line, "%c %d %d %d%n", &mover, &q->passed, &q->class, &q->dtz, &read) != 4) exit(2);
    q->mover = mover == 'b';
    q->count = q->counter = q->has_pawns = 0;
    for (const char *word = line + read; q->count < MEN && sscanf(word, " %c%d%n", &q->letter[q->count], &q->square[q->count], &read) == 2; word += read)
        q->has_pawns |= toupper((unsigned char)q->letter[q->count++]) == 'P';
    return 1;
}

static inline struct question read_fen(const char *fen) {
    struct question q = {.passed = NO_SQUARE};
    int rank = 7, file = 0;
    for (; *fen != ' '; fen++) {
        if (*fen == '/') { rank--, file = 0; continue; }
        if (isdigit((unsigned char)*fen)) { file += *fen - '0'; continue; }
        q.letter[q.count] = *fen, q.square[q.count++] = rank * 8 + file++;
    }
    q.mover = fen[1] == 'b';
    const char *passed = fen + 5;
    if (*passed != '-') q.passed = passed[0] - 'a' + 8 * (passed[1] - '1');
    q.counter = atoi(strchr(passed, ' ') + 1);
    return q;
}

static inline void write_fen(const struct question *q, char *out) {
    char board[64] = {0}, passed[3] = "-";
    for (int i = 0; i < q->count; i++) board[q->square[i]] = q->letter[i];
    if (q->passed != NO_SQUARE) passed[0] = (char)('a' + (q->passed & 7)), passed[1] = (char)('1' + (q->passed >> 3));
    sprintf(write_board(board, out), " %c - %s %d 1", "wb"[q->mover], passed, q->counter);
}

/* Flips files (1), ranks (2), files with ranks (4); the bit 8 exchanges the colors, for which the ranks are flipped too. */
static inline struct question flipped(const struct question *q, int flips) {
    struct question r = *q;
    int mask = (flips & 1 ? 7 : 0) | (!(flips & 2) == !(flips & 8) ? 0 : 56);
    for (int i = 0; i < q->count; i++) {
        r.square[i] ^= mask;
        if (flips & 4) r.square[i] = (r.square[i] & 7) * 8 + r.square[i] / 8;
        if (flips & 8) r.letter[i] ^= 32;
    }
    if (q->passed != NO_SQUARE) r.passed ^= mask;
    if (flips & 8) r.mover = !q->mover;
    return r;
}

/* Whether an image of a position is wanted: each that pawns allow, or the one that was drawn. */
static inline int is_wanted(const struct question *q, int flips, int is_all, int drawn) {
    return !(q->has_pawns && flips & 6) && (is_all || flips == (q->has_pawns ? drawn & 9 : drawn));
}

/* What Fathom finds for a position: its class, the result at the root, and that of each move, up to TB_RESULT_FAILED. */
struct found { unsigned wdl, root, results[TB_MAX_MOVES]; uint64_t colors[2], kinds[6]; };

static inline struct found fathom_of(const struct question *q) {
    struct found f = {.results = {TB_RESULT_FAILED}};
    for (int i = 0; i < q->count; i++) {
        f.colors[!!islower((unsigned char)q->letter[i])] |= 1ull << q->square[i];
        f.kinds[strchr(LETTERS, toupper((unsigned char)q->letter[i])) - LETTERS] |= 1ull << q->square[i];
    }
    const uint64_t *c = f.colors, *k = f.kinds;
    unsigned ep = q->passed == NO_SQUARE ? 0 : (unsigned)q->passed;
    f.wdl = tb_probe_wdl(c[0], c[1], k[5], k[4], k[3], k[2], k[1], k[0], 0, 0, ep, !q->mover);
    f.root = tb_probe_root(c[0], c[1], k[5], k[4], k[3], k[2], k[1], k[0], (unsigned)q->counter, 0, ep, !q->mover, f.results);
    return f;
}
#endif
