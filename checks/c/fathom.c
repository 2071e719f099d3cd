/* Probes positions by Fathom's interface: fathom FOLDER <FENS
 *
 * It is compiled with libfathom and with bindings/fathom, and must print the same. For each FEN it prints a line: the FEN, the class,
 * class and DTZ at the root, and what each call returns for each move, in the order of squares, as a checksum. Every
 * eighth position has a counter beyond the fifty-move rule. The move that is suggested at the root must have the class of the
 * position, and of those the best DTZ. Status 0 if it always has. */
#include "questions.h"
#include <inttypes.h>
#include <stdbool.h>

static struct TbRootMoves ranked;

struct ranked_move { unsigned move; int first, second; };

static int by_move(const void *a, const void *b) { return (int)((const struct ranked_move *)a)->move - (int)((const struct ranked_move *)b)->move; }

static void print_all(struct ranked_move *list, size_t count) {
    uint64_t sum = count;
    qsort(list, count, sizeof *list, by_move);
    for (size_t i = 0; i < count; i++) {
        const struct ranked_move *a = &list[i];
        sum = (sum ^ a->move) * 0x9e3779b97f4a7c15, sum = (sum ^ (unsigned)a->first) * 0x9e3779b97f4a7c15, sum = (sum ^ (unsigned)a->second) * 0x9e3779b97f4a7c15;
        sum ^= sum >> 29;
    }
    printf("\t%" PRIx64, sum);
}

static void print_ranked(int status) {
    struct ranked_move list[TB_MAX_MOVES];
    for (unsigned i = 0; status && i < ranked.size; i++) {
        const struct TbRootMove *m = &ranked.moves[i];
        list[i] = (struct ranked_move){(unsigned)(TB_MOVE_FROM(m->move) << 9 | TB_MOVE_TO(m->move) << 3 | TB_MOVE_PROMOTES(m->move) | m->pvSize << 20), m->tbRank, m->tbScore};
    }
    printf("\t%d", status);
    print_all(list, status ? ranked.size : 0);
}

/* The better, the larger, whoever wins. */
static long value_of(unsigned result) {
    long class = (long)TB_GET_WDL(result) - 2, dtz = (long)TB_GET_DTZ(result);
    return class * 10000 + (class > 0 ? -dtz : dtz);
}

static void print_root(const char *fen, unsigned root, const unsigned *results) {
    struct ranked_move list[TB_MAX_MOVES];
    size_t count = 0;
    long best = -1000000, suggested = -1000000;
    if (root == TB_RESULT_FAILED) { printf("\tfailed"); return; }
    printf("\t%u %u", TB_GET_WDL(root), TB_GET_DTZ(root));
    for (const unsigned *r = results; *r != TB_RESULT_FAILED; r++, count++) {
        list[count] = (struct ranked_move){TB_GET_FROM(*r) << 9 | TB_GET_TO(*r) << 3 | TB_GET_PROMOTES(*r), (int)(TB_GET_WDL(*r) | TB_GET_EP(*r) << 4), (int)TB_GET_DTZ(*r)};
        if (value_of(*r) > best) best = value_of(*r);
        if (!((*r ^ root) & ~TB_RESULT_DTZ_MASK)) suggested = value_of(*r);
    }
    if (count == 0) ++*(root == TB_RESULT_CHECKMATE ? &mates : &stalemates);
    if (best != suggested && differences++ < SHOWN) fprintf(stderr, "fathom: %s: the suggested move is not a best one\n", fen);
    print_all(list, count);
}

static void probe(const char *fen, const struct question *q) {
    struct found f = fathom_of(q);
    const uint64_t *c = f.colors, *k = f.kinds;
    unsigned ep = q->passed == NO_SQUARE ? 0 : (unsigned)q->passed, counter = (unsigned)q->counter;
    int flags = rand() & 7;
    bool is_repeated = flags & 1, is_counted = flags & 2;
    printf("%s\t%u", fen, f.wdl);
    print_root(fen, f.root, f.results);
    printf("\t%d", flags);
    print_ranked(tb_probe_root_dtz(c[0], c[1], k[5], k[4], k[3], k[2], k[1], k[0], counter, 0, ep, !q->mover, is_repeated, is_counted, &ranked));
    print_ranked(tb_probe_root_wdl(c[0], c[1], k[5], k[4], k[3], k[2], k[1], k[0], counter, 0, ep, !q->mover, is_counted, &ranked));
    printf("\t%x %x %x %d %d\n", tb_probe_wdl(c[0], c[1], k[5], k[4], k[3], k[2], k[1], k[0], counter + 1, 0, ep, !q->mover),
           tb_probe_wdl(c[0], c[1], k[5], k[4], k[3], k[2], k[1], k[0], 0, TB_CASTLING_K, ep, !q->mover),
           tb_probe_root(c[0], c[1], k[5], k[4], k[3], k[2], k[1], k[0], 0, TB_CASTLING_q, ep, !q->mover, NULL),
           tb_probe_root_dtz(c[0], c[1], k[5], k[4], k[3], k[2], k[1], k[0], 0, TB_CASTLING_k, ep, !q->mover, false, false, &ranked),
           tb_probe_root_wdl(c[0], c[1], k[5], k[4], k[3], k[2], k[1], k[0], 0, TB_CASTLING_Q, ep, !q->mover, false, &ranked));
}

int main(int count, char **words) {
    char fen[128];
    if (count != 2 || !tb_init(words[1])) return fprintf(stderr, "fathom FOLDER <FENS\n"), 2;
    printf("men: %u\n", TB_LARGEST);
    srand(3);
    for (; scanf(" %127[^\n]", fen) == 1; asked++) {
        struct question q = read_fen(fen);
        if (asked % 8 == 0) q.counter = 100 + rand() % 150;
        probe(fen, &q);
    }
    tb_free();
    fprintf(stderr, "fathom: %ld positions, %ld mates, %ld stalemates, %ld poor moves\n", asked, mates, stalemates, differences);
    return differences || !asked ? 1 : 0;
}
