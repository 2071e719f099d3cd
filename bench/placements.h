/* What the benches of probes share: men on squares, drawn by a fixed rule. */
#ifndef BENCH_PLACEMENTS_H
#define BENCH_PLACEMENTS_H
#include "bench.h"
#include "szg.h"

static inline bool kings_touch(const szg_man *men, int count) {
    int kings[2], found = 0;
    for (int i = 0; i < count; i++)
        if (men[i].kind == SZG_KING) kings[found++] = men[i].square;
    return abs(kings[0] % 8 - kings[1] % 8) <= 1 && abs(kings[0] / 8 - kings[1] / 8) <= 1;
}

/* Draws the squares of a name's men, and the color of its first side. Returns their number. */
static inline int draw_men(const char *name, szg_man *men, uint64_t *state) {
    int count;
    do {
        uint64_t used = 0;
        uint8_t is_flipped = draw(state) & 1, color = SZG_WHITE;
        count = 0;
        for (const char *letter = name; *letter; letter++) {
            if (*letter == 'v') {
                color = SZG_BLACK;
                continue;
            }
            uint8_t kind = (uint8_t)(strchr(" PNBRQK", *letter) - " PNBRQK"), square;
            do
                square = (uint8_t)(kind == SZG_PAWN ? 8 + draw(state) % 48 : draw(state) % 64);
            while (used >> square & 1);
            used |= 1ull << square;
            men[count++] = (szg_man){kind, color ^ is_flipped, square};
        }
    } while (kings_touch(men, count));
    return count;
}
#endif
