/* Times a plain C verifier of the conditions of `szg verify`, over the values that samples/solve.c solves, so it reads a
 * value where szg decodes one. It finds each position's entry once and keeps it: verify NAME=SIDE.. as for solve.
 * Prints of each table the positions and the seconds of processor time: NAME POSITIONS SECONDS. Status 1: one doesn't pass. */
#include "bench.h"
#define main solve_main
#include "../samples/solve.c"
#undef main

enum { FAR = 1000000, IS_NEAR = 1, IS_THERE = 2, IS_FOUND = 4 };

/* An entry: a class from -2 to 2, bounds on the plies, and whether it was found, is there, and is by the stored number alone. */
struct entry { int8_t class, state; uint16_t lower, upper; };

/* what was found of the positions of a table, by mover and offset */
static struct entry *found[2];
static int stored_side;

static bool is_zeroing(const struct position *p, const struct move *m) { return m->captured != NONE || p->table->kind[m->man] == PAWN; }

static struct position after_quiet(const struct position *p, const struct move *m) {
    struct position q = *p;
    q.mover = !p->mover, q.board[p->square[m->man]] = NONE, q.board[m->to] = (int8_t)m->man, q.square[m->man] = m->to;
    return q;
}

static bool keeps(int class, int after) { return class == 2 ? after == -2 : class == 1 && after < 0; }

static struct entry near_entry(const struct position *p, const struct move *moves, int count) {
    int value = p->table->value[p->mover][offset_of(p->table, p->square)], class = class_of(value);
    struct entry e = {(int8_t)class, IS_FOUND | IS_THERE | IS_NEAR, 0, 0};
    if (class == 0 || !count) return e;
    bool is_one = class < 0;
    for (int i = 0; i < count && (class < 0 ? is_one : !is_one); i++)
        is_one = is_zeroing(p, &moves[i]) && (class < 0 || keeps(class, -class_by(p, &moves[i])));
    if (is_one) return e.lower = e.upper = 1, e;
    if (p->mover != stored_side) return e.state = IS_FOUND, e;
    int plies = value > 0 ? value - 1 : value == loss(0) ? 0 : -2 - value, before = class == 1 || class == -1 ? limit : 0;
    if (before) return plies = (plies - before) / 2 * 2, e.lower = (uint16_t)(before + plies + 1), e.upper = (uint16_t)(e.lower + 1), e;
    return e.lower = e.upper = (uint16_t)(plies + 1), e;
}

static struct entry far_entry(const struct position *p, struct entry e, const struct move *moves, int count);

static struct entry entry_of(const struct position *p) {
    struct entry *kept = &found[p->mover][offset_of(p->table, p->square)];
    if (kept->state) return *kept;
    struct move moves[MOVES];
    int count = legal_moves(p, OFF, moves);
    struct entry e = near_entry(p, moves, count);
    if (!(e.state & IS_THERE)) e = far_entry(p, e, moves, count);
    return *kept = e;
}

/* the entry one ply before the stored side, from those after its quiet moves */
static struct entry far_entry(const struct position *p, struct entry e, const struct move *moves, int count) {
    bool is_won = e.class > 0;
    int lower = is_won ? FAR : 0, upper = lower;
    for (int i = 0; i < count; i++) {
        if (is_zeroing(p, &moves[i])) continue;
        struct position q = after_quiet(p, &moves[i]);
        struct entry f = entry_of(&q);
        if (!(f.state & IS_NEAR)) return e;
        if (is_won && !keeps(e.class, f.class)) continue;
        if (is_won ? f.lower < lower : f.lower > lower) lower = f.lower;
        if (is_won ? f.upper < upper : f.upper > upper) upper = f.upper;
    }
    if (lower >= UINT16_MAX) return e;
    return (struct entry){e.class, IS_FOUND | IS_THERE, (uint16_t)(lower + 1), (uint16_t)(upper + 1)};
}

/* Whether an entry agrees with those after the moves. */
static bool is_accepted(struct entry e, bool in_check, int count, const struct entry *f, const bool *zeroing) {
    bool wins = false, gains = false, loses = count, drops = count, sooner = true, sooner_limit = true;
    bool lasts = false, lasts_limit = false, none_lost = true, some_not_won = false;
    for (int i = 0; i < count; i++) {
        bool nearer = zeroing[i] || f[i].upper < e.upper, late = !zeroing[i] && e.lower <= f[i].lower + 1, late_limit = !zeroing[i] && limit <= f[i].lower;
        wins |= f[i].class == -2 && nearer, gains |= f[i].class < 0 && nearer;
        loses &= f[i].class == 2 && nearer, drops &= f[i].class > 0 && nearer;
        sooner &= f[i].class != -2 || late, sooner_limit &= f[i].class != -2 || late_limit;
        lasts |= f[i].class != 2 || late, lasts_limit |= f[i].class != 2 || late_limit;
        none_lost &= f[i].class >= 0, some_not_won |= f[i].class <= 0;
    }
    switch (e.class) {
        case 2: return 1 <= e.upper && e.upper <= limit && wins && (e.lower <= 1 || sooner);
        case -2: return e.upper <= limit && ((!count && in_check && !e.lower) || (1 <= e.upper && loses && (e.lower <= 1 || lasts)));
        case 1: return gains && sooner_limit;
        case -1: return drops && lasts_limit;
        default: return none_lost && (count ? some_not_won : !in_check);
    }
}

static bool is_checked(const struct position *p) {
    struct move moves[MOVES];
    struct entry e = entry_of(p), f[MOVES];
    bool zeroing[MOVES];
    int count = legal_moves(p, OFF, moves);
    if (!(e.state & IS_THERE)) return false;
    for (int i = 0; i < count; i++) {
        zeroing[i] = is_zeroing(p, &moves[i]);
        if (zeroing[i]) {
            f[i] = (struct entry){(int8_t)-class_by(p, &moves[i]), IS_FOUND | IS_THERE, 0, 0};
        } else {
            struct position q = after_quiet(p, &moves[i]);
            f[i] = entry_of(&q);
            if (!(f[i].state & IS_THERE)) return false;
        }
    }
    return is_accepted(e, in_check(p, p->mover), count, f, zeroing);
}

int main(int argc, char **argv) {
    number_groups();
    for (int a = 1; a < argc; a++) {
        char *side = strchr(argv[a], '=');
        if (side) *side++ = 0;
        const struct table *t = solved(argv[a]);
        struct position p = {.table = t};
        stored_side = !t->symmetric && side && *side == '1';
        for (int mover = 0; mover < 2; mover++)
            if (!(found[mover] = calloc(t->size, sizeof **found))) fail("no memory");
        long positions = 0;
        double begin = now();
        for (size_t offset = 0; offset < t->size; offset++) {
            position_at(t, offset, &p);
            if (!fill(&p)) continue;
            for (p.mover = 0; p.mover < 2; p.mover++) {
                if (t->value[p.mover][offset] == ILLEGAL) continue;
                positions++;
                if (!is_checked(&p)) return printf("%s: offset %zu, mover %d doesn't pass\n", t->name, offset, p.mover), 1;
            }
        }
        printf("%s %ld %.3f\n", t->name, positions, now() - begin);
        fflush(stdout);
        free(found[0]), free(found[1]);
    }
}
