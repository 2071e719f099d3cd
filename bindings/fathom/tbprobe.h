/* Fathom's interface to Syzygy tables, over libszg: an engine that is compiled with Fathom's tbprobe.h and tbprobe.c is compiled with
 * these two files in their place, and linked with libszg. They were written anew from what Fathom documents of its calls.
 *
 * Where these calls differ from Fathom's:
 * - Tables of three to six men are found.
 * - What is no position fails: a side to move that could take the king, two men on a square, a pawn on the first or last rank, an en
 *   passant square that no pawn can just have passed. So does a probe that reads a damaged block of a table.
 * - The results of tb_probe_root and tb_probe_root_dtz are in order, the best first. Where several moves are best, the one that
 *   tb_probe_root suggests may be another than Fathom's.
 * - All probes may run in several threads at a time, those at the root too. Each thread has a handle of a few KB, which is closed when
 *   the thread ends. While tb_init or tb_free runs, no probe may.
 * - A probe whose table is missing looks for its file each time. So probe no more than TB_LARGEST men.
 * - There are no options of tbconfig.h and no "helper API" (tb_pop_count, tb_king_attacks, ..).
 * What szg.h says of stack and of mapped files holds. */
#ifndef TBPROBE_H
#define TBPROBE_H
#include <stdbool.h>
#include <stdint.h>
#ifdef __cplusplus
extern "C" {
#endif

#define TB_MAX_MOVES (192 + 1)
#define TB_MAX_CAPTURES 64
#define TB_MAX_PLY 256

/* Castling rights, of White and of Black. */
#define TB_CASTLING_K 0x1
#define TB_CASTLING_Q 0x2
#define TB_CASTLING_k 0x4
#define TB_CASTLING_q 0x8

/* Classes, for the side to move. */
#define TB_LOSS 0
#define TB_BLESSED_LOSS 1
#define TB_DRAW 2
#define TB_CURSED_WIN 3
#define TB_WIN 4

#define TB_PROMOTES_NONE 0
#define TB_PROMOTES_QUEEN 1
#define TB_PROMOTES_ROOK 2
#define TB_PROMOTES_BISHOP 3
#define TB_PROMOTES_KNIGHT 4

/* A result has a class, the two squares of a move (a1 = 0, b1 = 1, .. h8 = 63), what it promotes to, whether it captures en
 * passant, and a DTZ in plies without its sign. */
#define TB_RESULT_WDL_MASK 0x0000000F
#define TB_RESULT_TO_MASK 0x000003F0
#define TB_RESULT_FROM_MASK 0x0000FC00
#define TB_RESULT_PROMOTES_MASK 0x00070000
#define TB_RESULT_EP_MASK 0x00080000
#define TB_RESULT_DTZ_MASK 0xFFF00000
#define TB_RESULT_WDL_SHIFT 0
#define TB_RESULT_TO_SHIFT 4
#define TB_RESULT_FROM_SHIFT 10
#define TB_RESULT_PROMOTES_SHIFT 16
#define TB_RESULT_EP_SHIFT 19
#define TB_RESULT_DTZ_SHIFT 20

#define TB_GET_(result, field) (((result) & TB_RESULT_##field##_MASK) >> TB_RESULT_##field##_SHIFT)
#define TB_GET_WDL(result) TB_GET_(result, WDL)
#define TB_GET_TO(result) TB_GET_(result, TO)
#define TB_GET_FROM(result) TB_GET_(result, FROM)
#define TB_GET_PROMOTES(result) TB_GET_(result, PROMOTES)
#define TB_GET_EP(result) TB_GET_(result, EP)
#define TB_GET_DTZ(result) TB_GET_(result, DTZ)

#define TB_SET_(result, value, field) \
    (((result) & ~TB_RESULT_##field##_MASK) | (((value) << TB_RESULT_##field##_SHIFT) & TB_RESULT_##field##_MASK))
#define TB_SET_WDL(result, value) TB_SET_(result, value, WDL)
#define TB_SET_TO(result, value) TB_SET_(result, value, TO)
#define TB_SET_FROM(result, value) TB_SET_(result, value, FROM)
#define TB_SET_PROMOTES(result, value) TB_SET_(result, value, PROMOTES)
#define TB_SET_EP(result, value) TB_SET_(result, value, EP)
#define TB_SET_DTZ(result, value) TB_SET_(result, value, DTZ)

#define TB_RESULT_CHECKMATE TB_SET_WDL(0, TB_WIN)
#define TB_RESULT_STALEMATE TB_SET_WDL(0, TB_DRAW)
#define TB_RESULT_FAILED 0xFFFFFFFF

/* Scores of moves are in these units. */
#define TB_VALUE_PAWN 100
#define TB_VALUE_MATE 32000
#define TB_VALUE_INFINITE 32767
#define TB_VALUE_DRAW 0
#define TB_MAX_MATE_PLY 255

/* The most men of a WDL table that was found; 0 if none was. */
extern unsigned TB_LARGEST;

/* Looks for tables in the folders of a path, separated by ':', and closes those of an earlier call. A file is opened when a probe
 * first needs it. Returns false if there is no memory; true, with TB_LARGEST 0, if there are no tables. */
bool tb_init(const char *path);

/* Closes all tables. */
void tb_free(void);

/* The position of all probes: bitboards of each side's men and of each kind (bit 0 is a1, bit 63 h8); the fifty-move counter, in
 * plies; castling rights; the square that a pawn has just passed over by a double step, or 0; whether White is to move. */
#define TB_BOARD_ \
    uint64_t white, uint64_t black, uint64_t kings, uint64_t queens, uint64_t rooks, uint64_t bishops, uint64_t knights, uint64_t pawns

unsigned tb_probe_wdl_impl(TB_BOARD_, unsigned ep, bool turn);
unsigned tb_probe_root_impl(TB_BOARD_, unsigned rule50, unsigned ep, bool turn, unsigned *results);

/* Returns the class of a position, for an engine's search. TB_RESULT_FAILED: the counter isn't 0, there are castling rights, or a
 * table is missing. */
static inline unsigned tb_probe_wdl(TB_BOARD_, unsigned rule50, unsigned castling, unsigned ep, bool turn)
{
    if (castling != 0 || rule50 != 0)
        return TB_RESULT_FAILED;
    return tb_probe_wdl_impl(white, black, kings, queens, rooks, bishops, knights, pawns, ep, turn);
}

/* Returns the class of a position with its counter, its DTZ, and a move that keeps the class, by DTZ tables. Writes the result of
 * each legal move to `results`, a list of TB_MAX_MOVES items, and TB_RESULT_FAILED after the last, unless it is NULL. Without a
 * move it returns TB_RESULT_CHECKMATE or TB_RESULT_STALEMATE. TB_RESULT_FAILED: there are castling rights, or a table is missing. */
static inline unsigned tb_probe_root(TB_BOARD_, unsigned rule50, unsigned castling, unsigned ep, bool turn, unsigned *results)
{
    if (castling != 0)
        return TB_RESULT_FAILED;
    return tb_probe_root_impl(white, black, kings, queens, rooks, bishops, knights, pawns, rule50, ep, turn, results);
}

typedef uint16_t TbMove;
#define TB_MOVE_FROM(move) (((move) >> 6) & 0x3F)
#define TB_MOVE_TO(move) ((move) & 0x3F)
#define TB_MOVE_PROMOTES(move) (((move) >> 12) & 0x7)

/* A move with its rank, by which moves are compared, and its score. pvSize is 0: no line of moves is predicted. */
struct TbRootMove {
    TbMove move;
    TbMove pv[TB_MAX_PLY];
    unsigned pvSize;
    int32_t tbScore, tbRank;
};

struct TbRootMoves {
    unsigned size;
    struct TbRootMove moves[TB_MAX_MOVES];
};

/* Ranks the legal moves of a position by DTZ tables: 1000 for a win that comes in time, less by plies and counter for a later one, and
 * for each win if the position is repeated; the same below zero for losses, -1000 if twice the plies are in time. Without useRule50
 * each win has the score of a win. Returns 0 if there are castling rights or a table is missing, else 1. */
int tb_probe_root_dtz(TB_BOARD_, unsigned rule50, unsigned castling, unsigned ep, bool turn, bool hasRepeated, bool useRule50,
                      struct TbRootMoves *results);

/* Ranks them by WDL tables, where DTZ tables are missing: by class alone, and without useRule50 a cursed win as a win. Returns as
 * tb_probe_root_dtz. */
int tb_probe_root_wdl(TB_BOARD_, unsigned rule50, unsigned castling, unsigned ep, bool turn, bool useRule50,
                      struct TbRootMoves *results);

#ifdef __cplusplus
}
#endif
#endif
