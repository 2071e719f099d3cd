/* What the benches call of Fathom: its probes of positions, and the look-up in one table, without the captures and moves of its
 * public calls. Debian's libfathom 1.0+git.20190811 exports the latter; its header doesn't have it. */
#ifndef BENCH_FATHOM_H
#define BENCH_FATHOM_H
#include "szg.h"
#include <tbprobe.h>

enum { FATHOM_WDL = 0, FATHOM_DTZ = 2 };

typedef struct {
    uint64_t white, black, kings, queens, rooks, bishops, knights, pawns;
    uint8_t rule50, ep;
    bool turn; /* whether White moves */
} fathom_position;

extern int probe_table(const fathom_position *position, int wdl, int *success, const int type);

static inline fathom_position fathom_of(const szg_man *men, int count, uint8_t mover) {
    fathom_position p = {.turn = mover == SZG_WHITE};
    uint64_t *kinds[] = {NULL, &p.pawns, &p.knights, &p.bishops, &p.rooks, &p.queens, &p.kings};
    for (int i = 0; i < count; i++) {
        *(men[i].color == SZG_WHITE ? &p.white : &p.black) |= 1ull << men[i].square;
        *kinds[men[i].kind] |= 1ull << men[i].square;
    }
    return p;
}

/* The class of a position plus 2, and the result at the root, with those of all moves. */
static inline unsigned fathom_wdl(const fathom_position *p) {
    return tb_probe_wdl(p->white, p->black, p->kings, p->queens, p->rooks, p->bishops, p->knights, p->pawns, 0, 0, 0, p->turn);
}
static inline unsigned fathom_root(const fathom_position *p, unsigned *results) {
    return tb_probe_root(p->white, p->black, p->kings, p->queens, p->rooks, p->bishops, p->knights, p->pawns, 0, 0, 0, p->turn, results);
}
#endif
