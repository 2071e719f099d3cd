/* Fathom's interface over libszg on boards that libFuzzer chooses, by tables of which it may damage one: each result is one that
 * tbprobe.h has, the three lists of moves have the same moves, and by the whole tables the class at the root is that of the probe.
 * Compiled with the address sanitizer, which watches folders.c and tbprobe.c. SAMPLES is the folder of the sample tables.
 *
 * An input: the number of the sample that is replaced, the number of boards, 16 bytes for each, and the file's bytes. */
#include "guided.h"
#include "tbprobe.h"
#include <unistd.h>

enum { BOARDS = 8, BYTES = 16, MOST = TB_MAX_MOVES };
static char folder[] = "/tmp/szg_guided_XXXXXX", paths[4200];

static void remove_folder(void) { rmdir(folder); }

int LLVMFuzzerInitialize(int *count, char ***words) {
    (void)count, (void)words;
    require(mkdtemp(folder) != NULL && atexit(remove_folder) == 0, "no folder");
    snprintf(paths, sizeof paths, "%s:%s", folder, getenv("SAMPLES"));
    return 0;
}

struct board { uint64_t colors[2], kinds[7]; unsigned rule50, castling, ep; bool turn; };
#define OF(b) (b)->colors[0], (b)->colors[1], (b)->kinds[SZG_KING], (b)->kinds[SZG_QUEEN], (b)->kinds[SZG_ROOK], (b)->kinds[SZG_BISHOP], \
              (b)->kinds[SZG_KNIGHT], (b)->kinds[SZG_PAWN], (b)->rule50, (b)->castling, (b)->ep, (b)->turn

/* Two kings and a man of a table, or with some bytes up to four more men, or what is no board. */
static struct board board_of(const uint8_t *from) {
    struct board b = {.rule50 = from[0] < 128 ? 0 : from[0] < 250 ? from[0] - 128u : UINT32_MAX - from[1], .castling = from[2] > 250, .turn = from[3] % 2};
    if (from[4] > 200) b.ep = from[4] > 250 ? UINT32_MAX - from[5] : from[5] % 70u;
    int men = from[6] < 200 ? 3 : from[6] % 8;
    for (int i = 0; i < men; i++) {
        uint64_t square = (uint64_t)1 << from[8 + i] % 64;
        b.colors[i < 2 ? i : from[7] >> (i - 2) & 1] |= square;
        b.kinds[i < 2 ? SZG_KING : 1 + (from[7] >> 5 ^ from[8 + i] >> 6 ^ i) % 5] |= square;
    }
    if (from[15] > 250) b.kinds[from[14] % 7] ^= (uint64_t)1 << from[13] % 64;
    return b;
}

/* From, to and promotion of each move, in order. */
struct moves { unsigned count, moves[MOST]; };

static int by_number(const void *a, const void *b) {
    unsigned first = *(const unsigned *)a, second = *(const unsigned *)b;
    return (first > second) - (first < second);
}

static void sort(struct moves *m) { qsort(m->moves, m->count, sizeof *m->moves, by_number); }

static bool is_same(struct moves *a, struct moves *b) {
    sort(a), sort(b);
    return a->count == b->count && !memcmp(a->moves, b->moves, a->count * sizeof *a->moves);
}

static void note(const struct board *b, struct moves *m, unsigned from, unsigned to, unsigned promotion) {
    require(m->count < MOST - 1 && from < 64 && to < 64 && from != to && promotion <= TB_PROMOTES_KNIGHT, "a move");
    require((b->colors[!b->turn] >> from & 1) && !(b->colors[!b->turn] >> to & 1), "a move of another side");
    m->moves[m->count++] = from << 9 | to << 3 | promotion;
}

static bool ranked(const struct board *b, bool by_dtz, bool is_counted, struct moves *m) {
    static struct TbRootMoves found;
    memset(&found, 0xa5, sizeof found);
    int done = by_dtz ? tb_probe_root_dtz(OF(b), b->colors[0] % 2, is_counted, &found) : tb_probe_root_wdl(OF(b), is_counted, &found);
    if (!done) return false;
    require(done == 1 && found.size < MOST, "a list of moves");
    for (unsigned i = 0; i < found.size; i++) {
        const struct TbRootMove *one = &found.moves[i];
        note(b, m, TB_MOVE_FROM(one->move), TB_MOVE_TO(one->move), TB_MOVE_PROMOTES(one->move));
        require(one->pvSize == 0 && (b->rule50 > 1000 || abs(one->tbRank) <= 1000 + 1000) && abs(one->tbScore) < TB_VALUE_MATE, "a rank");
    }
    return true;
}

static void examine(const struct board *b, bool is_whole) {
    unsigned results[MOST], class = tb_probe_wdl(OF(b)), root = tb_probe_root(OF(b), results);
    struct moves listed = {0}, by_dtz = {0}, by_wdl = {0};
    require(class <= TB_WIN || class == TB_RESULT_FAILED, "the class");
    require(tb_probe_wdl(OF(b)) == class && tb_probe_root(OF(b), NULL) == root, "another result");
    if (b->castling) require(class == TB_RESULT_FAILED && root == TB_RESULT_FAILED, "castling");
    if (root != TB_RESULT_FAILED) {
        for (unsigned i = 0; i < MOST && results[i] != TB_RESULT_FAILED; i++)
            note(b, &listed, TB_GET_FROM(results[i]), TB_GET_TO(results[i]), TB_GET_PROMOTES(results[i])), require(TB_GET_WDL(results[i]) <= TB_WIN, "a class");
        if (listed.count == 0) require(root == TB_RESULT_CHECKMATE || root == TB_RESULT_STALEMATE, "no move");
        else require(TB_GET_FROM(root) == TB_GET_FROM(results[0]) && TB_GET_TO(root) == TB_GET_TO(results[0]), "the first move");
        if (is_whole && b->rule50 == 0 && listed.count > 0) require(TB_GET_WDL(root) == class && TB_GET_WDL(results[0]) == class, "the class at the root");
        if (is_whole && b->rule50 == 0 && listed.count == 0) require(class == (root == TB_RESULT_CHECKMATE ? TB_LOSS : TB_DRAW), "the class of the end");
    }
    bool has_dtz = ranked(b, true, b->colors[1] % 2, &by_dtz), has_wdl = ranked(b, false, b->colors[1] % 2, &by_wdl);
    require(has_dtz || root == TB_RESULT_FAILED, "no ranks");
    if (has_dtz && root != TB_RESULT_FAILED) require(is_same(&listed, &by_dtz), "the moves by DTZ");
    if (has_dtz && has_wdl) require(is_same(&by_dtz, &by_wdl), "the moves by WDL");
    /* of more men there is no table, but a position without a move has its list of moves, which is empty */
    if (is_whole && __builtin_popcountll(b->colors[0] | b->colors[1]) <= 3) require(has_dtz == (root != TB_RESULT_FAILED) && has_dtz == has_wdl, "whole tables");
}

int LLVMFuzzerTestOneInput(const uint8_t *input, size_t length) {
    char path[4200];
    if (length < 2) return 0;
    size_t boards = input[1] % BOARDS + 1, used = 2 + boards * BYTES;
    if (length < used) return 0;
    int replaced = input[0] % (2 * FILES);
    bool is_whole = replaced >= FILES;
    if (!is_whole) {
        write_path(path, sizeof path, folder, replaced);
        FILE *f = fopen(path, "wb");
        require(f && fwrite(input + used, 1, length - used, f) == length - used && fclose(f) == 0, "no file");
    }
    require(tb_init(paths) && TB_LARGEST == 3, "the tables");
    for (size_t i = 0; i < boards; i++) {
        struct board b = board_of(input + 2 + i * BYTES);
        examine(&b, is_whole);
    }
    tb_free();
    require(TB_LARGEST == 0 && tb_probe_wdl(0, 0, 0, 0, 0, 0, 0, 0, 0, 0, 0, true) == TB_RESULT_FAILED, "a probe after the end");
    if (!is_whole) unlink(path);
    return 0;
}
