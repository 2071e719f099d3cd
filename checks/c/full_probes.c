/* Compares full probing: what `szg probe FOLDER.. -` prints, Fathom's and Stockfish's, and the solver's.
 *
 *     full_probes draw SEED ALL <NAME.positions >EXPECTED      a line "FEN<tab>class<tab>dtz" for each position that was solved
 *     full_probes passing TABLES LETTER >NAME.positions
 *     full_probes compare TABLES OUTPUT STOCKFISH EXPECTED
 *
 * draw: each position is turned or flipped at random (ALL 0), or in all mirror images with both colors (ALL 1), and has a
 * fifty-move counter, which is 0 for half of them.
 * passing: positions of a king and a pawn against a king and a pawn, with the man LETTER of White (Q) or Black (q), in which White
 * may capture en passant: where that is the only move, where it gives check by the man, or where it would give up White's king
 * to it. Tables of five men with one value serve: a position is left out where that isn't the best of Fathom's moves. Nothing was
 * solved (class 9).
 * compare: OUTPUT has szg's lines, STOCKFISH a line "class dtz" for each. Fathom, which is linked, probes the tables in the
 * folder TABLES: class, DTZ, and each move's class and DTZ with the counter. szg's best move has to be one of Fathom's best. The
 * solver's DTZ may be one ply off where tables count moves. Prints each difference up to twenty, and a line of counts. Status 0
 * without differences, 1 with some, 2 if something is missing. */
#include "questions.h"

enum { LINE = 1 << 14 };
enum { UNSOLVED = 9 };
static long passing, passing_only, passing_wins;

/* ---- en passant */
/* Makes White's move, which takes what is on `taken`. Returns whether it is legal; *checks is whether another man gives check. */
static int is_legal(const char *board, int from, int to, int taken, int *checks) {
    char after[64];
    memcpy(after, board, 64);
    after[from] = after[taken] = 0, after[to] = board[from];
    *checks = is_attacked(after, 'k', to);
    return !is_attacked(after, 'K', NO_SQUARE);
}

static void board_of(const struct question *q, char *board) {
    memset(board, 0, 64);
    for (int i = 0; i < q->count; i++) board[q->square[i]] = q->letter[i];
}

/* Whether White's king or pawn has a legal move that isn't en passant. */
static int has_other_move(const char *board, int king, int pawn) {
    int checks;
    for (int to = 0; to < 64; to++) {
        if (isupper((unsigned char)board[to])) continue;
        if (attacks(board, king, to) && is_legal(board, king, to, to, &checks)) return 1;
        if ((board[to] ? attacks(board, pawn, to) : to == pawn + 8) && is_legal(board, pawn, to, to, &checks)) return 1;
    }
    return 0;
}

/* Whether these men are a position in which en passant is the only move, gives check by the other man, or gives up the king. */
static int is_passing(const struct question *q) {
    char board[64];
    int men = 0, checks, king = q->square[0], pawn = q->square[1];
    board_of(q, board);
    for (int i = 0; i < 64; i++) men += board[i] != 0;
    if (men < q->count || board[q->passed] || board[q->passed + 8] || is_attacked(board, 'k', NO_SQUARE)) return 0;
    if (!is_legal(board, pawn, q->passed, q->passed - 8, &checks)) return !is_attacked(board, 'K', NO_SQUARE);
    return checks || (islower((unsigned char)q->letter[2]) && !has_other_move(board, king, pawn));
}

static int write_passing(char **words) {
    struct question q = {.count = 5, .letter = {'K', 'P', words[1][0], 'k', 'p'}};
    if (!tb_init(words[0])) return perror("full_probes"), 2;
    for (int all = 0; all < 1 << 22; all++) {
        int pawn = all >> 19 | 32, taken = pawn + (all >> 18 & 1 ? 1 : -1), squares[] = {all >> 12 & 63, pawn, all >> 6 & 63, all & 63, taken};
        memcpy(q.square, squares, sizeof squares);
        q.passed = taken + 8;
        if (taken >> 3 != 4 || !is_passing(&q)) continue;
        struct found found = fathom_of(&q);
        unsigned best = TB_LOSS;
        if (found.root == TB_RESULT_FAILED) continue;
        for (unsigned *r = found.results; *r != TB_RESULT_FAILED; r++) if (TB_GET_WDL(*r) > best) best = TB_GET_WDL(*r);
        if (best != found.wdl) continue;
        printf("w %d %d %d", q.passed, UNSOLVED, UNSOLVED);
        for (int i = 0; i < q.count; i++) printf(" %c%d", q.letter[i], q.square[i]);
        puts("");
    }
    return 0;
}

/* ---- drawing */
static int draw(int seed, int is_all) {
    struct question q, r;
    char fen[128];
    srand((unsigned)seed);
    while (read_question(&q))
        for (int drawn = rand() & 15, flips = 0; flips < 16; flips++) {
            if (!is_wanted(&q, flips, is_all, drawn)) continue;
            r = flipped(&q, flips);
            r.counter = rand() & 1 ? rand() % 100 : 0;
            write_fen(&r, fen);
            printf("%s\t%d\t%d\n", fen, r.class, r.dtz);
        }
    return 0;
}

/* ---- comparing */
static void differ(const char *fen, const char *who, long class, long dtz, long due_class, long due_dtz) {
    if (differences++ < SHOWN) printf("%s: %s: class %ld, dtz %ld; szg: class %ld, dtz %ld\n", fen, who, class, dtz, due_class, due_dtz);
}

static int class_at(int counter, int dtz) { return dtz > 0 ? (dtz + counter <= 100 ? 2 : 1) : dtz < 0 ? (-dtz + counter <= 100 ? -2 : -1) : 0; }

static void uci_of(unsigned result, char *out) {
    unsigned from = TB_GET_FROM(result), to = TB_GET_TO(result), promotes = TB_GET_PROMOTES(result);
    sprintf(out, "%c%d%c%d", 'a' + from % 8, from / 8 + 1, 'a' + to % 8, to / 8 + 1);
    if (promotes) out[4] = "\0qrbn"[promotes], out[5] = 0;
}

/* The signed DTZ of a move of Fathom: its sign is that of its class. */
static int dtz_of(unsigned result) { int class = (int)TB_GET_WDL(result) - 2, dtz = (int)TB_GET_DTZ(result); return class < 0 ? -dtz : dtz; }

/* Wins by the least DTZ first, then draws, then losses by the greatest. */
static long rank_of(int dtz) { return dtz > 0 ? dtz : dtz == 0 ? 10000 : 40000 + dtz; }

static void compare_best(const char *fen, const unsigned *results, const char *best) {
    long least = 1 << 30, own = -1;
    char uci[8];
    if (*results == TB_RESULT_FAILED) {
        if (strcmp(best, "-")) differ(fen, "Fathom has no move", 0, 0, 0, 0);
        return;
    }
    for (const unsigned *r = results; *r != TB_RESULT_FAILED; r++) {
        uci_of(*r, uci);
        if (rank_of(dtz_of(*r)) < least) least = rank_of(dtz_of(*r));
        if (!strcmp(uci, best)) own = rank_of(dtz_of(*r));
    }
    if (own != least) differ(fen, "best move of Fathom", least, own, 0, 0);
}

static void ask_fathom(const char *fen, int class, int dtz, const char *best) {
    struct question q = read_fen(fen);
    struct found found = fathom_of(&q);
    unsigned root = found.root, *results = found.results;
    if (q.counter == 0 && (int)found.wdl - 2 != class) differ(fen, "Fathom in WDL", (long)found.wdl - 2, 0, class, dtz);
    if (root == TB_RESULT_CHECKMATE || root == TB_RESULT_STALEMATE) {
        int is_mate = root == TB_RESULT_CHECKMATE;
        (*(is_mate ? &mates : &stalemates))++;
        if (class != (is_mate ? -2 : 0) || dtz != (is_mate ? -1 : 0) || strcmp(best, "-")) differ(fen, is_mate ? "mate" : "stalemate", 0, 0, class, dtz);
        return;
    }
    if (root == TB_RESULT_FAILED) { differ(fen, "Fathom has no answer", 9, 9, class, dtz); return; }
    int due = (int)TB_GET_DTZ(root), root_class = (int)TB_GET_WDL(root) - 2;
    if (root_class < 0) due = -due;
    if (root_class != class || due != dtz || class_at(q.counter, due) != class) differ(fen, "Fathom at the root", root_class, due, class, dtz);
    compare_best(fen, results, best);
    if (q.passed != NO_SQUARE) {
        int by_passing = 0, others = 0, wins = 0;
        for (unsigned *r = results; *r != TB_RESULT_FAILED; r++)
            if (TB_GET_EP(*r)) by_passing++, wins |= TB_GET_WDL(*r) > TB_DRAW; else others++;
        passing += by_passing > 0, passing_only += by_passing && !others, passing_wins += wins;
    }
}

static int compare(char **words) {
    static char line[LINE], stockfish[256], expected[512];
    FILE *answers = fopen(words[1], "r"), *others = fopen(words[2], "r"), *due = fopen(words[3], "r");
    if (!answers || !others || !due || !tb_init(words[0])) return perror("full_probes"), 2;
    while (fgets(expected, sizeof expected, due)) {
        int class, dtz, solver_class, solver_dtz, other_class, other_dtz;
        if (!fgets(line, sizeof line, answers) || !fgets(stockfish, sizeof stockfish, others)) return fprintf(stderr, "full_probes: too few answers\n"), 2;
        line[strcspn(line, "\n")] = 0;
        char *fen = line, *tab = strchr(line, '\t'), best[8] = "?";
        if (!tab) return fprintf(stderr, "full_probes: no tab: %s\n", line), 2;
        *tab++ = 0;
        asked++;
        size_t length = strlen(fen);
        if (strncmp(expected, fen, length) || expected[length] != '\t') return fprintf(stderr, "full_probes: other FEN: %s\n", fen), 2;
        if (sscanf(tab, "%d\t%d\t%7[^\t]", &class, &dtz, best) != 3) { differ(fen, tab, 0, 0, 0, 0); continue; }
        if (sscanf(expected + length, "\t%d\t%d", &solver_class, &solver_dtz) != 2) return 2;
        int counter = read_fen(fen).counter, is_late = solver_class == 1 || solver_class == -1;
        if (solver_class != UNSOLVED && (abs(dtz - solver_dtz) > is_late || (counter == 0 && class != solver_class))) differ(fen, "the solver", solver_class, solver_dtz, class, dtz);
        if (sscanf(stockfish, "%d %d", &other_class, &other_dtz) != 2 || other_dtz != dtz || (counter == 0 && other_class != class))
            differ(fen, "Stockfish", other_class, other_dtz, class, dtz);
        ask_fathom(fen, class, dtz, best);
    }
    printf("%ld positions (%ld with a capture en passant, %ld without another move, %ld won by it; %ld mates, %ld stalemates): %ld differences\n",
           asked, passing, passing_only, passing_wins, mates, stalemates, differences);
    return differences || !asked ? 1 : 0;
}

int main(int count, char **words) {
    if (count == 4 && !strcmp(words[1], "draw")) return draw(atoi(words[2]), atoi(words[3]));
    if (count == 4 && !strcmp(words[1], "passing")) return write_passing(words + 2);
    if (count == 6 && !strcmp(words[1], "compare")) return compare(words + 2);
    return fprintf(stderr, "full_probes draw SEED ALL | passing TABLES LETTER | compare TABLES OUTPUT STOCKFISH EXPECTED\n"), 2;
}
