/* Fathom's interface over libszg: see tbprobe.h.
 *
 * A thread probes by a handle of its own, which its first probe makes. The handle is the thread's value of `key`, and in a list, so
 * that it is closed when the thread ends, or by tb_free. */
#define _POSIX_C_SOURCE 200809L
#include "tbprobe.h"
#include "szg.h"
#include <pthread.h>
#include <stdlib.h>

unsigned TB_LARGEST = 0;

struct handle {
    struct handle *next;
    szg_folders *folders; /* NULL if tb_free has closed them */
};

static pthread_mutex_t lock = PTHREAD_MUTEX_INITIALIZER; /* for what follows; probes read `key` and `tables` without it */
static pthread_key_t key;
static bool has_key;
static szg_folders *tables; /* those of tb_init; NULL for none */
static struct handle *handles;

static void close_handle(void *value)
{
    struct handle *handle = value, **at = &handles;
    pthread_mutex_lock(&lock);
    while (*at != handle)
        at = &(*at)->next;
    *at = handle->next;
    pthread_mutex_unlock(&lock);
    szg_close_folders(handle->folders);
    free(handle);
}

/* Opens the folders of this thread's handle, and makes the handle if it has none. NULL if there is no memory. */
static szg_folders *open_handle(struct handle *handle)
{
    szg_folders *folders = NULL;
    pthread_mutex_lock(&lock);
    if (handle == NULL && (handle = calloc(1, sizeof *handle)) != NULL) {
        if (pthread_setspecific(key, handle) == 0) {
            handle->next = handles;
            handles = handle;
        } else {
            free(handle);
            handle = NULL;
        }
    }
    if (handle != NULL && szg_share_folders(tables, &folders) == SZG_DONE)
        handle->folders = folders;
    pthread_mutex_unlock(&lock);
    return folders;
}

/* The folders of this thread, or NULL. */
static szg_folders *folders_of_thread(void)
{
    struct handle *handle = tables == NULL ? NULL : pthread_getspecific(key);
    if (handle != NULL && handle->folders != NULL)
        return handle->folders;
    return tables == NULL ? NULL : open_handle(handle);
}

void tb_free(void)
{
    pthread_mutex_lock(&lock);
    for (struct handle *handle = handles; handle != NULL; handle = handle->next) {
        szg_close_folders(handle->folders);
        handle->folders = NULL;
    }
    szg_close_folders(tables);
    tables = NULL;
    TB_LARGEST = 0;
    pthread_mutex_unlock(&lock);
}

bool tb_init(const char *path)
{
    tb_free();
    if (*path == '\0')
        return true;
    uint8_t most_men = 0;
    pthread_mutex_lock(&lock);
    has_key = has_key || pthread_key_create(&key, close_handle) == 0;
    bool is_open = has_key && szg_open_folders(path, &tables) == SZG_DONE;
    if (is_open)
        szg_folders_list(tables, NULL, 0, &most_men);
    TB_LARGEST = most_men;
    pthread_mutex_unlock(&lock);
    return is_open;
}

struct position {
    szg_man men[SZG_MAX_MEN];
    size_t count;
    uint8_t mover, passed;
};

/* The folders of this thread, with the position of a probe; NULL if there are too many men, or no tables. */
static szg_folders *begin(const szg_board *board, unsigned ep, bool turn, struct position *p)
{
    p->mover = turn ? SZG_WHITE : SZG_BLACK;
    p->passed = ep == 0 || ep >= SZG_NO_SQUARE ? SZG_NO_SQUARE : (uint8_t)ep;
    return szg_board_men(board, p->men, &p->count) == SZG_DONE ? folders_of_thread() : NULL;
}

#define BOARD (&(szg_board){white, black, kings, queens, rooks, bishops, knights, pawns})
#define POSITION(p) (p).men, (p).count, (p).mover, (p).passed

unsigned tb_probe_wdl_impl(TB_BOARD_, unsigned ep, bool turn)
{
    struct position p;
    int8_t class;
    szg_missing missing;
    szg_folders *folders = begin(BOARD, ep, turn, &p);
    if (folders == NULL || szg_folders_wdl(folders, POSITION(p), &class, &missing) != SZG_DONE)
        return TB_RESULT_FAILED;
    return (unsigned)(class + 2);
}

/* Kinds of men in the order in which Fathom numbers promotions. */
static unsigned promotes(uint8_t kind)
{
    return kind == 0 ? TB_PROMOTES_NONE : TB_PROMOTES_QUEEN + (SZG_QUEEN - (unsigned)kind);
}

static bool is_pawn_on(const struct position *p, uint8_t square)
{
    for (size_t i = 0; i < p->count; i++)
        if (p->men[i].square == square)
            return p->men[i].kind == SZG_PAWN;
    return false;
}

static unsigned result_of(const struct position *p, const szg_move *move)
{
    unsigned result = TB_SET_WDL(0u, (unsigned)(move->class_of_position + 2));
    result = TB_SET_FROM(result, (unsigned)move->from);
    result = TB_SET_TO(result, (unsigned)move->to);
    result = TB_SET_PROMOTES(result, promotes(move->promotion));
    result = TB_SET_EP(result, (unsigned)(move->to == p->passed && is_pawn_on(p, move->from)));
    return TB_SET_DTZ(result, (unsigned)llabs(move->dtz));
}

unsigned tb_probe_root_impl(TB_BOARD_, unsigned rule50, unsigned ep, bool turn, unsigned *results)
{
    struct position p;
    szg_distance distance;
    szg_missing missing;
    szg_move moves[SZG_MAX_MOVES];
    size_t count;
    szg_folders *folders = begin(BOARD, ep, turn, &p);
    if (folders == NULL || szg_folders_dtz(folders, POSITION(p), rule50, &distance, &missing) != SZG_DONE ||
        szg_folders_moves(folders, POSITION(p), rule50, moves, SZG_MAX_MOVES, &count, &missing) != SZG_DONE)
        return TB_RESULT_FAILED;
    for (size_t i = 0; results != NULL && i <= count; i++)
        results[i] = i < count ? result_of(&p, &moves[i]) : TB_RESULT_FAILED;
    if (count == 0)
        return distance.class_of_position < 0 ? TB_RESULT_CHECKMATE : TB_RESULT_STALEMATE;
    moves[0].class_of_position = distance.class_of_position;
    moves[0].dtz = distance.dtz;
    return result_of(&p, &moves[0]);
}

static void add_move(struct TbRootMoves *results, uint8_t from, uint8_t to, uint8_t promotion, int rank, int score)
{
    struct TbRootMove *move = &results->moves[results->size++];
    move->move = (TbMove)(promotes(promotion) << 12 | (unsigned)from << 6 | to);
    move->pvSize = 0;
    move->tbRank = rank;
    move->tbScore = score;
}

enum { SURE = TB_VALUE_MATE - TB_MAX_MATE_PLY - 1 };

/* The rank of a move; `end` is the counter when its win or loss comes. */
static int rank_of(const szg_move *move, unsigned counter, bool is_repeated)
{
    int plies = (int)llabs(move->dtz), end = plies + (int)counter;
    if (move->dtz > 0)
        return end < 100 && !is_repeated ? 1000 : 1000 - end;
    return plies == 0 ? 0 : plies + end < 100 ? -1000 : end - 1000;
}

/* The score of a rank: that of a mate if it is sure, else as Fathom's (as it is, not as Stockfish has it). */
static int score_of(int rank, bool is_counted)
{
    int size = abs(rank), score = size >= (is_counted ? 900 : 1) ? SURE : size >= 803 ? size - 400 : size > 0 ? 3 : TB_VALUE_DRAW;
    return rank < 0 ? -score : score;
}

int tb_probe_root_dtz(TB_BOARD_, unsigned rule50, unsigned castling, unsigned ep, bool turn, bool hasRepeated, bool useRule50,
                      struct TbRootMoves *results)
{
    struct position p;
    szg_missing missing;
    szg_move moves[SZG_MAX_MOVES];
    size_t count;
    szg_folders *folders = castling != 0 ? NULL : begin(BOARD, ep, turn, &p);
    if (folders == NULL || szg_folders_moves(folders, POSITION(p), rule50, moves, SZG_MAX_MOVES, &count, &missing) != SZG_DONE)
        return 0;
    results->size = 0;
    for (const szg_move *move = moves; move < moves + count; move++) {
        int rank = rank_of(move, rule50, hasRepeated);
        add_move(results, move->from, move->to, move->promotion, rank, score_of(rank, useRule50));
    }
    return 1;
}

/* The squares that a man may go to, if checks are left aside. */
static uint64_t targets(const struct position *p, const szg_man *man, uint64_t own, uint64_t other)
{
    static const int8_t lines[8][2] = {{1, 0}, {0, 1}, {-1, 0}, {0, -1}, {1, 1}, {-1, 1}, {-1, -1}, {1, -1}};
    static const int8_t leaps[8][2] = {{1, 2}, {2, 1}, {2, -1}, {1, -2}, {-1, -2}, {-2, -1}, {-2, 1}, {-1, 2}};
    const int8_t(*steps)[2] = man->kind == SZG_KNIGHT ? leaps : lines;
    bool is_pawn = man->kind == SZG_PAWN, slides = man->kind >= SZG_BISHOP && man->kind <= SZG_QUEEN;
    int ahead = man->color == SZG_WHITE ? 1 : -1, start = man->color == SZG_WHITE ? 1 : 6;
    uint64_t found = 0;
    for (int i = man->kind == SZG_BISHOP ? 4 : 0; i < (man->kind == SZG_ROOK ? 4 : 8); i++) {
        int file = man->square % 8, rank = man->square / 8;
        if (is_pawn && steps[i][1] != ahead)
            continue;
        /* a pawn goes straight to free squares, and aslant where it captures */
        int most = slides ? 7 : is_pawn && steps[i][0] == 0 && rank == start ? 2 : 1;
        while (most-- > 0) {
            file += steps[i][0], rank += steps[i][1];
            if (file < 0 || file > 7 || rank < 0 || rank > 7)
                break;
            uint64_t square = (uint64_t)1 << (rank * 8 + file), taken = other | (is_pawn && p->passed < 64 ? (uint64_t)1 << p->passed : 0);
            if ((own & square) != 0 || (is_pawn && (steps[i][0] == 0) == ((taken & square) != 0)))
                break;
            found |= square;
            if ((other & square) != 0)
                break;
        }
    }
    return found;
}

/* The position after a man goes to a square. */
static struct position after(const struct position *p, const szg_man *man, uint8_t to, uint8_t promotion)
{
    struct position q = {.mover = p->mover == SZG_WHITE ? SZG_BLACK : SZG_WHITE, .passed = SZG_NO_SQUARE};
    bool is_pawn = man->kind == SZG_PAWN;
    uint8_t captured = is_pawn && to == p->passed ? to ^ 8 : to;
    for (const szg_man *other = p->men; other < p->men + p->count; other++)
        if (other != man && other->square != captured)
            q.men[q.count++] = *other;
    q.men[q.count++] = (szg_man){promotion != 0 ? promotion : man->kind, man->color, to};
    if (is_pawn && abs(to - man->square) == 16)
        q.passed = (uint8_t)((to + man->square) / 2);
    return q;
}

/* Ranks a man's moves to a square. False if a table is missing. */
static bool rank_moves_to(szg_folders *folders, const struct position *p, const szg_man *man, uint8_t to, bool is_counted,
                          struct TbRootMoves *results)
{
    static const int ranks[] = {0, 899, 1000}, scores[] = {TB_VALUE_DRAW, TB_VALUE_DRAW + 2, SURE};
    bool is_promoted = man->kind == SZG_PAWN && (to < 8 || to > 55);
    for (uint8_t kind = is_promoted ? SZG_QUEEN : 0; kind != SZG_PAWN; kind = is_promoted ? kind - 1 : SZG_PAWN) {
        struct position q = after(p, man, to, kind);
        int8_t class;
        szg_missing missing;
        uint32_t status = szg_folders_wdl(folders, POSITION(q), &class, &missing);
        if (status == SZG_IN_CHECK)
            return true;
        if (status != SZG_DONE)
            return false;
        int size = class == 0 ? 0 : is_counted ? abs(class) : 2, sign = class > 0 ? -1 : 1;
        add_move(results, man->square, to, kind, sign * ranks[size], sign * scores[size]);
    }
    return true;
}

int tb_probe_root_wdl(TB_BOARD_, unsigned rule50, unsigned castling, unsigned ep, bool turn, bool useRule50,
                      struct TbRootMoves *results)
{
    struct position p;
    int8_t class;
    szg_missing missing;
    szg_folders *folders = castling != 0 ? NULL : begin(BOARD, ep, turn, &p);
    (void)rule50;
    if (folders == NULL || szg_folders_wdl(folders, POSITION(p), &class, &missing) != SZG_DONE)
        return 0;
    results->size = 0;
    for (const szg_man *man = p.men; man < p.men + p.count; man++) {
        uint64_t squares = man->color != p.mover ? 0 : targets(&p, man, turn ? white : black, turn ? black : white);
        for (uint8_t to = 0; squares != 0; to++, squares >>= 1)
            if ((squares & 1) != 0 && !rank_moves_to(folders, &p, man, to, useRule50, results))
                return 0;
    }
    return 1;
}
