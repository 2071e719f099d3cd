/* Times captures, legal moves and the positions after them by szg_chess and by plain C with bitboards and a table of the
 * squares between, on the same positions: chess NAME=FEN.. Prints nanoseconds a call and the ratios. */
#include "bench.h"

/* turns are short, so that on a busy machine some are undisturbed */
enum { ROUNDS = 5000, TURNS = 200, PAWN = 1, KNIGHT, BISHOP, ROOK, QUEEN, KING, WHITE = 0, BLACK = 1, NONE = 64 };

/* exported by the static library szg_bench */
uint64_t szg_bench_captures(const uint8_t *fen, size_t len, uint32_t rounds);
uint64_t szg_bench_legal(const uint8_t *fen, size_t len, uint32_t rounds);
uint64_t szg_bench_after(const uint8_t *fen, size_t len, uint32_t rounds);

struct man {
    uint8_t kind, color, square;
};

struct position {
    struct man men[6];
    int count;
    uint64_t occupied;
    int mover, passed;
};

struct move {
    uint8_t from, to, promotion;
};

/* by kind, Black's pawn first */
static uint64_t reach[7][64], between[64][64];

static int apart(int a, int b) { return abs(a - b); }

static void make_tables(void) {
    for (int a = 0; a < 64; a++)
        for (int b = 0; b < 64; b++) {
            int files = apart(a % 8, b % 8), ranks = apart(a / 8, b / 8), up = b / 8 - a / 8;
            uint64_t bit = UINT64_C(1) << b;
            if (files == 1 && up == -1) reach[0][a] |= bit;
            if (files == 1 && up == 1) reach[PAWN][a] |= bit;
            if (files * ranks == 2) reach[KNIGHT][a] |= bit;
            if (a != b && files == ranks) reach[BISHOP][a] |= bit;
            if (a != b && (files == 0 || ranks == 0)) reach[ROOK][a] |= bit;
            if (a != b && files <= 1 && ranks <= 1) reach[KING][a] |= bit;
            reach[QUEEN][a] = reach[BISHOP][a] | reach[ROOK][a];
            if (a == b || !(files == ranks || files == 0 || ranks == 0)) continue;
            int step = (b % 8 > a % 8) - (b % 8 < a % 8) + 8 * ((up > 0) - (up < 0));
            for (int m = a + step; m != b; m += step) between[a][b] |= UINT64_C(1) << m;
        }
}

static bool attacks(uint64_t occupied, struct man man, int to) {
    int row = man.kind == PAWN && man.color == BLACK ? 0 : man.kind;
    return reach[row][man.square] >> to & 1 && !(between[man.square][to] & occupied);
}

static bool is_pawn_on(const struct position *p, int square) {
    for (int i = 0; i < p->count; i++)
        if (p->men[i].square == square) return p->men[i].kind == PAWN && p->men[i].color == p->mover;
    return false;
}

static int captured_square(const struct position *p, struct move m) {
    if (m.to == p->passed && apart(m.from % 8, m.to % 8) == 1 && is_pawn_on(p, m.from)) return m.from / 8 * 8 + m.to % 8;
    return m.to;
}

static bool is_legal(const struct position *p, struct move m) {
    int captured = captured_square(p, m), king = NONE;
    uint64_t occupied = (p->occupied & ~(UINT64_C(1) << captured) & ~(UINT64_C(1) << m.from)) | UINT64_C(1) << m.to;
    for (int i = 0; i < p->count; i++)
        if (p->men[i].kind == KING && p->men[i].color == p->mover) king = p->men[i].square == m.from ? m.to : p->men[i].square;
    for (int i = 0; i < p->count; i++)
        if (p->men[i].color != p->mover && p->men[i].square != captured && attacks(occupied, p->men[i], king)) return false;
    return true;
}

static int push(const struct position *p, struct move *moves, int count, struct man man, int to) {
    struct move m = {man.square, (uint8_t)to, 0};
    if (!is_legal(p, m)) return count;
    if (man.kind == PAWN && (to < 8 || to >= 56)) {
        for (int piece = QUEEN; piece >= KNIGHT; piece--) {
            m.promotion = (uint8_t)piece;
            moves[count++] = m;
        }
        return count;
    }
    moves[count++] = m;
    return count;
}

static int captures(const struct position *p, struct move *moves) {
    int count = 0;
    for (int i = 0; i < p->count; i++) {
        struct man man = p->men[i];
        if (man.color != p->mover) continue;
        for (int j = 0; j < p->count; j++)
            if (p->men[j].color != p->mover && attacks(p->occupied, man, p->men[j].square)) count = push(p, moves, count, man, p->men[j].square);
        if (p->passed != NONE && man.kind == PAWN && attacks(p->occupied, man, p->passed)) count = push(p, moves, count, man, p->passed);
    }
    return count;
}

static bool may_enter(const struct position *p, struct man man, int to) {
    if (p->occupied >> to & 1) return false;
    if (man.kind != PAWN) return attacks(p->occupied, man, to);
    int up = man.color == WHITE ? 8 : -8, home = man.color == WHITE ? 1 : 6;
    if (to == man.square + up) return true;
    return to == man.square + 2 * up && man.square / 8 == home && !(p->occupied >> (man.square + up) & 1);
}

static int legal_moves(const struct position *p, struct move *moves) {
    int count = captures(p, moves);
    for (int i = 0; i < p->count; i++)
        if (p->men[i].color == p->mover)
            for (int to = 0; to < 64; to++)
                if (may_enter(p, p->men[i], to)) count = push(p, moves, count, p->men[i], to);
    return count;
}

static inline __attribute__((always_inline)) struct position after(const struct position *p, struct move m) {
    int captured = captured_square(p, m);
    struct position q = {.count = 0, .mover = !p->mover, .passed = NONE};
    q.occupied = (p->occupied & ~(UINT64_C(1) << captured) & ~(UINT64_C(1) << m.from)) | UINT64_C(1) << m.to;
    for (int i = 0; i < p->count; i++) {
        struct man man = p->men[i];
        if (man.square == captured) continue;
        if (man.square == m.from) {
            if (man.kind == PAWN && apart(m.from / 8, m.to / 8) == 2) q.passed = (m.from + m.to) / 2;
            man.square = m.to;
            if (m.promotion) man.kind = m.promotion;
        }
        q.men[q.count++] = man;
    }
    return q;
}

static struct position parse(const char *fen) {
    struct position p = {.count = 0, .passed = NONE};
    int rank = 7, file = 0;
    for (; *fen != ' '; fen++) {
        const char *letters = "PNBRQK", *at = strchr(letters, *fen & ~32);
        if (*fen == '/') rank--, file = 0;
        else if (*fen <= '8') file += *fen - '0';
        else p.men[p.count++] = (struct man){(uint8_t)(at - letters + 1), *fen > 'Z', (uint8_t)(8 * rank + file++)};
    }
    for (int i = 0; i < p.count; i++) p.occupied |= UINT64_C(1) << p.men[i].square;
    p.mover = fen[1] == 'w' ? WHITE : BLACK;
    if (fen[5] != '-') p.passed = fen[5] - 'a' + 8 * (fen[6] - '1');
    return p;
}

static uint64_t mixed(struct move m) { return 64u * m.from + m.to + 4096u * m.promotion; }

/* A function that lists moves by LIST, and sums them. */
#define SUM_OF(name, list) \
    static __attribute__((noinline)) uint64_t name(const struct position *p, uint32_t rounds) { \
        uint64_t sum = 0; \
        struct move moves[128]; \
        for (uint32_t r = 0; r < rounds; r++) { \
            __asm__ volatile("" : : "r"(p) : "memory"); \
            int count = list(p, moves); \
            for (int i = 0; i < count; i++) sum += mixed(moves[i]); \
        } \
        return sum; \
    }
SUM_OF(c_captures, captures)
SUM_OF(c_legal, legal_moves)

static __attribute__((noinline)) uint64_t weight(const struct position *p) {
    uint64_t sum = (uint64_t)p->passed;
    for (int i = 0; i < p->count; i++) sum += p->men[i].square;
    return sum;
}

static __attribute__((noinline)) uint64_t c_after(const struct position *p, uint32_t rounds) {
    uint64_t sum = 0;
    struct move moves[128];
    int count = legal_moves(p, moves);
    for (uint32_t r = 0; r < rounds; r++)
        for (int i = 0; i < count; i++) {
            __asm__ volatile("" : : "r"(p) : "memory");
            struct position q = after(p, moves[i]);
            sum += weight(&q);
        }
    return sum;
}

/* the least time of several turns of each, one after the other */
static bool compare(const char *call, const char *named, uint64_t (*rattle)(const uint8_t *, size_t, uint32_t), uint64_t (*c)(const struct position *, uint32_t), double calls) {
    const char *fen = strchr(named, '=') + 1;
    struct position p = parse(fen);
    double best[2] = {0};
    uint64_t sums[2] = {0, 0};
    for (int turn = 0; turn < TURNS; turn++) {
        double begin = now();
        sums[0] = rattle((const uint8_t *)fen, strlen(fen), ROUNDS);
        double middle = now();
        sums[1] = c(&p, ROUNDS);
        least(&best[0], middle - begin), least(&best[1], now() - middle);
    }
    printf("%s, %.*s: szg_chess %.1f ns, plain C %.1f ns, ratio %.2f%s\n", call, (int)(fen - named - 1), named, best[0] / ROUNDS / calls * 1e9,
           best[1] / ROUNDS / calls * 1e9, best[0] / best[1], sums[0] == sums[1] ? "" : ", DIFFERENT SUMS");
    return sums[0] == sums[1];
}

int main(int argc, char **argv) {
    bool same = true;
    make_tables();
    for (int i = 1; i < argc; i++) {
        struct move moves[128];
        struct position p = parse(strchr(argv[i], '=') + 1);
        int count = legal_moves(&p, moves);
        same &= compare("captures", argv[i], szg_bench_captures, c_captures, 1);
        same &= compare("legal", argv[i], szg_bench_legal, c_legal, 1);
        if (count) same &= compare("after", argv[i], szg_bench_after, c_after, count);
    }
    return same ? 0 : 1;
}
