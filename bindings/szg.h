/* szg: Syzygy tables, read with proof.
 *
 * Threads: a szg_table or szg_front is a handle, and serves one call at a time, the look-ups too. Threads that share a table
 * use a handle each, made by szg_share or szg_share_front: the table stays in memory once, and no call waits for another. A
 * handle may pass from one thread to another by a lock or by a thread's start or join. The calls without a handle
 * (szg_check, szg_size, szg_values, szg_values_at) may run side by side.
 *
 * A call takes the name of a material, such as "KQvKR" (with its length; no zero byte is needed), whether the table is a DTZ
 * table (else WDL), and the bytes of its file in memory. Bytes after the file are ignored. Each call returns a status of
 * enum szg_status, except szg_close, szg_close_front and the three that write texts.
 *
 * These results are proved for every name, all bytes and all men. What the caller must ensure is not checked: each pointer
 * points to as many items as the length after it says, and is not NULL even if that is 0; no length is 2^63 bytes or more;
 * while a call runs, nobody else reads or writes what it writes, or writes what it reads; malloc, realloc and free of the
 * program are one allocator, which aligns as C requires; no call is made from a signal handler, or from the forked child of
 * a process with threads, unless malloc may be called there (after fork it may with glibc). The library calls nothing back,
 * prints nothing and, but for szg_folders, locks nothing. But if the processor lacks a feature of x86-64-v2, for which it is
 * compiled, it isn't loaded, or prints so before main and ends the program with status 127. On Linux, blocks of 4 MB and more
 * are mappings of its own, with huge pages if the kernel has some.
 *
 * Stack: szg_check, szg_size, szg_values, szg_values_at, szg_open, szg_open_front, szg_tablebase_add, szg_tablebase_moves and
 * all calls on szg_folders use less than 56 KB, szg_all less than 32 KB, szg_tablebase_wdl, szg_tablebase_wdl_of_fens and
 * szg_tablebase_dtz less than 24 KB, the other calls less than 8 KB. Whether it is there is not checked.
 *
 * Mapped files: a file that is truncated must not be read by its map any more. A call that does is ended by the system with
 * SIGBUS, and so is the program. If others may truncate the file, read its bytes: szg_front_find says which. */
#ifndef SZG_H
#define SZG_H
#include <stdbool.h>
#include <stddef.h>
#include <stdint.h>
#ifdef __cplusplus
extern "C" {
#endif

/* The version of this header. A library with the same major number serves a program compiled with it. */
#define SZG_VERSION_MAJOR 2
#define SZG_VERSION_MINOR 0
#define SZG_VERSION_PATCH 0
#define SZG_VERSION "2.0.0"

enum szg_status {
    SZG_DONE = 0,    /* the call was carried out */
    SZG_NAME = 1,    /* the name is not a material's */
    SZG_REFUSED = 2, /* the bytes are not a table: answer->place and answer->reason are the first check that fails */
    SZG_MEMORY = 3,  /* an allocation was refused */
    SZG_RANGE = 4,   /* the table has no such part, side, index or class, the list has another length or is too short, or
                        a DTZ number is requested of a WDL table */
    SZG_CLOSED = 5,  /* the handle holds no table */

    /* the men are no placement: the first of these that applies */
    SZG_MAN = 6,         /* a number is no kind of man, no colour or no square */
    SZG_MEN = 7,         /* not three to six men, or a colour without exactly one king */
    SZG_SAME_SQUARE = 8, /* two men are on one square */
    SZG_PAWN_RANK = 9,   /* a pawn is on rank 1 or 8 */

    /* the table has no index for the placement: the first of these that applies */
    SZG_OTHER_MATERIAL = 10, /* the men are not the table's */
    SZG_IRREGULAR = 11,      /* a leading man that is no pawn has a twin, or equal men are in several groups */
    SZG_KINGS_TOUCH = 12,    /* the leading group is the two kings, and they touch */
    SZG_WRONG_SIDE = 13,     /* the DTZ table stores the other side to move only */

    /* the value at the index has no meaning */
    SZG_NO_CLASS = 14,   /* the value is none of the five classes of a WDL table */
    SZG_DRAW = 15,       /* a draw has no number in a DTZ table */
    SZG_OUTSIDE_MAP = 16, /* the value is not in the DTZ table's map */

    SZG_CHANGED = 17, /* the bytes can't be those of the file: szg_front_value got more or fewer of them than szg_front_find
                         counts, or szg_front_get or szg_front_probe so few that the end of the value's block is missing;
                         or the bytes that were added to a tablebase lead to no block.
                         No call has it for a constant subtable, whose values need no bytes */

    SZG_BAD_BLOCK = 18, /* the block that has the value does not decode: the file is damaged there */

    /* tablebases: the men and the en passant square are no position (or SZG_MAN to SZG_PAWN_RANK) */
    SZG_EN_PASSANT = 19, /* no pawn can just have passed over the en passant square by a double step */
    SZG_IN_CHECK = 20,   /* the side not to move is in check */

    SZG_MISSING = 21,       /* a table that the position needs is not there */
    SZG_CONTRADICTION = 22 /* the tables contradict themselves: no move keeps a win, or a number is there for neither side */
};

enum szg_reason {
    SZG_TRUNCATED = 1, SZG_MAGIC, SZG_SPLIT_BIT, SZG_PAWN_BIT, SZG_PIECES, SZG_PAWNS_FIRST, SZG_ORDER_PLACE,
    SZG_BLOCK_BITS, SZG_SPAN_BITS, SZG_CODE_LENGTHS, SZG_LOWEST_ORDER, SZG_TOO_FULL, SZG_CHILD, SZG_CYCLE,
    SZG_LONG_SYMBOL, SZG_SHORT_TOTAL, SZG_SPARSE_ENTRY, SZG_WORD
};

/* ---- Texts: the calls write to `text` as snprintf does: as much of the text as leaves room for a zero byte within
 * `capacity` bytes, and this byte. The rest of `text` stays. They return the length of the whole text, without the zero
 * byte: the text is cut if this is not below the capacity. */

/* A buffer of this size has room for each text. */
#define SZG_TEXT_SIZE 32

/* The version of the library, in the form of SZG_VERSION. A buffer of SZG_TEXT_SIZE bytes has room for it. */
size_t szg_version(char *text, size_t capacity);

/* The name of a status: "OtherMaterial" for SZG_OTHER_MATERIAL; the empty name for a number that is no status. A buffer
 * of SZG_TEXT_SIZE bytes has room for each. */
size_t szg_status_text(uint32_t status, char *text, size_t capacity);

/* The name of a reason, which szg prints: "SplitBit" for SZG_SPLIT_BIT; the empty name for a number that is no reason. A
 * buffer of SZG_TEXT_SIZE bytes has room for each. */
size_t szg_reason_text(uint32_t reason, char *text, size_t capacity);

typedef struct szg_answer {
    uint64_t place;  /* refused: the offset of the check; szg_check, done: the number of bytes of the table's file */
    uint32_t reason; /* refused: the check that fails (enum szg_reason) */
} szg_answer;

/* Checks whether the bytes begin with a table's file that passes every check; answer->place is the length of that file. */
uint32_t szg_check(const char *name, size_t name_length, bool dtz, const uint8_t *bytes, size_t length,
                   szg_answer *answer);

/* The number of positions of a part's side. With another status than SZG_DONE *size stays. */
uint32_t szg_size(const char *name, size_t name_length, bool dtz, const uint8_t *bytes, size_t length,
                  uint8_t part, uint8_t side, uint64_t *size, szg_answer *answer);

/* All stored values of a part's side (see szg_get). `count` is its number of positions. With another status than SZG_DONE the
 * list stays. */
uint32_t szg_values(const char *name, size_t name_length, bool dtz, const uint8_t *bytes, size_t length,
                    uint8_t part, uint8_t side, uint16_t *values, size_t count, szg_answer *answer);

/* The stored values at these indexes (see szg_get), in their order; their number is the length of the shorter list. With
 * another status than SZG_DONE the list stays. */
uint32_t szg_values_at(const char *name, size_t name_length, bool dtz, const uint8_t *bytes, size_t length,
                       uint8_t part, uint8_t side, const uint64_t *indexes, size_t index_count,
                       uint16_t *values, size_t value_count, szg_answer *answer);

/* A table in memory, with a copy of all that it needs of the file. Initialise it with SZG_NO_TABLE, let only the calls change
 * it, and pass it to one call at a time. A copy of the struct is no second handle: the table has moved, and only one of the
 * two may be used from then on, since to close both is to free the table twice. Each call writes to the handle, so handles
 * of different threads are best kept in different cache lines. */
typedef struct szg_table { void *held; } szg_table;

/* A handle that holds no table, to initialise or to assign. A static handle is one without it, since its bytes are 0: ISO C
 * takes this as no constant. */
#ifdef __cplusplus
#define SZG_NO_TABLE (szg_table{})
#else
#define SZG_NO_TABLE ((szg_table){0})
#endif

/* Opens a table. The handle's previous table is closed, also if the call is refused. Here and in the other calls with an
 * answer, except szg_check, *answer stays with another status than SZG_REFUSED. */
uint32_t szg_open(const char *name, size_t name_length, bool dtz, const uint8_t *bytes, size_t length,
                  szg_table *table, szg_answer *answer);

/* Makes `second` a second handle of the table that `table` holds, without a copy. The table is freed when the last of its
 * handles is closed or opens another. The previous table of `second` is closed first, also if the call is refused: so
 * szg_share(&t, &t) closes t and returns SZG_CLOSED. */
uint32_t szg_share(szg_table *table, szg_table *second);

/* The stored value at an index of a part's side, which isn't the position's result (szg_folders_wdl, szg_folders_dtz) if a
 * capture, or in DTZ a pawn move, decides. In a WDL table it is the stored class plus 2, in a DTZ table what szg_number takes.
 * With another status than SZG_DONE *value stays. */
uint32_t szg_get(szg_table *table, uint8_t part, uint8_t side, uint64_t index, uint16_t *value);

/* The number of positions of a part's side. With another status than SZG_DONE *size stays. */
uint32_t szg_positions(szg_table *table, uint8_t part, uint8_t side, uint64_t *size);

/* All stored values of a part's side (see szg_get), written straight to the list: no memory is taken. `count` is its number of
 * positions. With another status than SZG_DONE the list stays. */
uint32_t szg_all(szg_table *table, uint8_t part, uint8_t side, uint16_t *values, size_t count);

/* The stored number of a DTZ value, which isn't the position's DTZ (szg_folders_dtz) if a capture or pawn move decides: plies, in a
 * class (2 win, 1 cursed win, -1 blessed loss, -2 loss). See szg_probe for what it counts. SZG_RANGE: a WDL table, a part that
 * does not exist, or a class below -2 or above 2. SZG_DRAW and SZG_OUTSIDE_MAP: there is no number. With another status than
 * SZG_DONE *number stays. */
uint32_t szg_number(szg_table *table, uint8_t part, int8_t class_of_position, uint16_t value, uint32_t *number);

/* ---- Placements: `men` points to `count` men in any order, `mover` (enum szg_color) is the side to move. The men are
 * checked: the statuses SZG_MAN to SZG_WRONG_SIDE say what is refused. Nothing else of a position is looked at: castling,
 * en passant, checks and captures are the caller's. */

enum szg_kind { SZG_PAWN = 1, SZG_KNIGHT, SZG_BISHOP, SZG_ROOK, SZG_QUEEN, SZG_KING };
enum szg_color { SZG_WHITE = 0, SZG_BLACK = 1 };

/* A man on a square, three bytes. Other numbers than these are refused with SZG_MAN. */
typedef struct szg_man {
    uint8_t kind;   /* enum szg_kind, as in python-chess */
    uint8_t color;  /* enum szg_color */
    uint8_t square; /* a1 = 0, b1 = 1, .. h8 = 63 */
} szg_man;

/* Where a table stores a placement: szg_get returns the value there. */
typedef struct szg_spot {
    uint8_t part;   /* 0 to 3 for the files a to d of the leading pawn; 0 without pawns */
    uint8_t side;   /* 0 if the name's first side moves, else 1; 0 if the table has one side */
    uint64_t index; /* below the number of positions */
} szg_spot;

/* The part, side and index of a placement. With another status than SZG_DONE *spot stays. */
uint32_t szg_index(szg_table *table, const szg_man *men, size_t count, uint8_t mover, szg_spot *spot);

/* The most men that a placement has. */
#define SZG_MAX_MEN 6

/* The squares of men, as engines have them: those of each side and of each kind. Bit 0 is a1, bit 1 is b1, .. bit 63 is h8. */
typedef struct szg_board {
    uint64_t white;
    uint64_t black;
    uint64_t kings;
    uint64_t queens;
    uint64_t rooks;
    uint64_t bishops;
    uint64_t knights;
    uint64_t pawns;
} szg_board;

/* The men of a board, in the order of their squares, for the other calls. `men` is a list of SZG_MAX_MEN items, and *count their
 * number. SZG_MAN: a square has a color without a kind, or a kind without a color. SZG_SAME_SQUARE: it has two. SZG_MEN: there are
 * more than SZG_MAX_MEN men. Then the list and *count stay. */
uint32_t szg_board_men(const szg_board *board, szg_man *men, size_t *count);

/* The placement of an index of a part's side: the inverse of szg_index. Writes the men to the beginning of `men`, a list of
 * `capacity` items, their number to *count, and the side to move (enum szg_color) to *mover. The name's first side is
 * White; the side to move is the subtable's, in a DTZ table the stored one, and White if both sides have the same men. A
 * list of SZG_MAX_MEN items has room for each placement. SZG_IRREGULAR and SZG_WRONG_SIDE: the part's side has no
 * placements. SZG_RANGE: there is no such part, side or index, or the list is too short. With another status than SZG_DONE
 * the list, *count and *mover stay. */
uint32_t szg_placement(szg_table *table, uint8_t part, uint8_t side, uint64_t index, szg_man *men, size_t capacity,
                       size_t *count, uint8_t *mover);

/* Returns what the table stores for a placement, which isn't the position's result (szg_folders_wdl, szg_folders_dtz) if a
 * capture (WDL), or a capture or pawn move (DTZ), decides: then a table may hold whatever value makes the file small. En passant
 * and the fifty-move counter aren't known to a table either. A WDL table stores the class for the side to move (2 win, 1 cursed
 * win, 0 draw, -1 blessed loss, -2 loss) and ignores `class_of_position`. A DTZ table stores a number n of plies without sign for
 * this class: it counts the plies before the zeroing one (a capture, a pawn move or mate), in the classes 1 and -1 from the 101st
 * on. So, unless a capture or pawn move decides, DTZ is n + 1 for a win, n + 101 for a cursed win, -(n + 101) for a blessed loss,
 * -(n + 1) for a loss. What the table counts in moves is doubled, and the distance may be one ply more. In a DTZ table SZG_RANGE
 * means a class below -2 or above 2. With another status than SZG_DONE *outcome stays. */
uint32_t szg_probe(szg_table *table, const szg_man *men, size_t count, uint8_t mover, int8_t class_of_position,
                   int64_t *outcome);

/* Closes the table. A second call does nothing. */
void szg_close(szg_table *table);

/* ---- Opened fronts: opening costs what the front of the file costs.
 *
 * szg_open_front reads and checks the headers, the maps, the sparse indexes and the block lengths, and looks at no block.
 * Each look-up takes the bytes of the file again (the caller's map, say: see "Mapped files" above), verifies the whole block
 * that has the value, and returns the value or SZG_BAD_BLOCK. A damaged block spoils no look-up in another one. Bits that
 * were flipped so that the block still decodes can't be seen. A look-up takes no memory and no lock. A caller without the
 * whole file in memory takes three steps: szg_front_find returns which bytes the value needs, the caller reads them,
 * szg_front_value decodes the value.
 *
 * Threads that share a front use a szg_front each, made by szg_share_front, as with the other handles: the front stays in
 * memory once, and no call waits for another. All of them may read the same bytes at a time. */

/* An opened front. Initialise it with SZG_NO_FRONT, let only the calls change it, and pass it to one call at a time. What
 * szg_table says of copies and of cache lines holds here, too. */
typedef struct szg_front { void *held; } szg_front;

/* A handle that holds no front: see SZG_NO_TABLE. */
#ifdef __cplusplus
#define SZG_NO_FRONT (szg_front{})
#else
#define SZG_NO_FRONT ((szg_front){0})
#endif

/* A block that doesn't decode. */
typedef struct szg_bad_block {
    uint32_t block;  /* its number in its subtable */
    uint64_t offset; /* its offset in the file */
} szg_bad_block;

/* Opens the front of the table whose file the bytes are. The handle's previous front is closed, also if the call is
 * refused. The statuses are those of szg_open: SZG_NAME, SZG_REFUSED (then *answer has the offset and the reason) and
 * SZG_MEMORY. With another status than SZG_REFUSED *answer stays. */
uint32_t szg_open_front(const char *name, size_t name_length, bool dtz, const uint8_t *bytes, size_t length,
                        szg_front *front, szg_answer *answer);

/* Makes `second` a second handle of what `front` holds, without a copy, as szg_share does. */
uint32_t szg_share_front(szg_front *front, szg_front *second);

/* The number of positions of a part's side. With another status than SZG_DONE *size stays. */
uint32_t szg_front_size(szg_front *front, uint8_t part, uint8_t side, uint64_t *size);

/* The greatest span bits of the table's subtables, as `szg show` prints them: 1 to 31, or 0 if all are constant. To find its block
 * a look-up adds at most 2^(*bits - 1) + 65535 lengths of blocks: in a crafted table of one-value blocks that may take 16 to 55 ms.
 * In the last span of a front it may add up to three times as many, since a front keeps no lengths of blocks that no value needs.
 * A caller that must not wait so long opens a front first, and opens or adds no table whose bits exceed a bound. With another
 * status than SZG_DONE *bits stays. */
uint32_t szg_front_span(szg_front *front, uint8_t *bits);

/* The stored value at an index of a part's side: see szg_get. `bytes` are those of the file that szg_open_front was given.
 * SZG_BAD_BLOCK: the block that has the value doesn't decode, and *bad names it. SZG_CHANGED: this block ends after these
 * bytes. With another status than SZG_DONE *value stays, with another than SZG_BAD_BLOCK *bad stays. */
uint32_t szg_front_get(szg_front *front, const uint8_t *bytes, size_t length, uint8_t part, uint8_t side,
                       uint64_t index, uint16_t *value, szg_bad_block *bad);

/* A byte range of a file: `count` bytes from `offset` on, all within the bytes given to szg_open_front. */
typedef struct szg_byte_range {
    uint64_t offset;
    uint64_t count; /* a block's, 1 byte to 256 KiB; in a constant subtable a value needs no bytes: then both are 0 */
} szg_byte_range;

/* The byte range of the file that the value at an index of a part's side needs, for a caller that reads the file in pieces,
 * as by pread. With another status than SZG_DONE *range stays. */
uint32_t szg_front_find(szg_front *front, uint8_t part, uint8_t side, uint64_t index, szg_byte_range *range);

/* The stored value at an index of a part's side, decoded from `block`, the `count` bytes of the file at the range that
 * szg_front_find returned for this index. In a constant subtable no byte is read. If they are the file's, the status and the
 * value are those of szg_front_get. SZG_BAD_BLOCK: the block doesn't decode, and *bad names it. SZG_CHANGED: there are more
 * or fewer bytes. Other bytes of the same number may decode to another value, the one that their words spell. With another
 * status than SZG_DONE *value stays, with another than SZG_BAD_BLOCK *bad stays. */
uint32_t szg_front_value(szg_front *front, uint8_t part, uint8_t side, uint64_t index, const uint8_t *block,
                         size_t count, uint16_t *value, szg_bad_block *bad);

/* The part, side and index of a placement: see szg_index. With another status than SZG_DONE *spot stays. */
uint32_t szg_front_index(szg_front *front, const szg_man *men, size_t count, uint8_t mover, szg_spot *spot);

/* The placement of an index of a part's side: see szg_placement. With another status than SZG_DONE the list, *count and
 * *mover stay. */
uint32_t szg_front_placement(szg_front *front, uint8_t part, uint8_t side, uint64_t index, szg_man *men, size_t capacity,
                             size_t *count, uint8_t *mover);

/* The stored class or number of a placement, decoded from the bytes of the file: see szg_probe, and szg_front_get for
 * SZG_BAD_BLOCK and SZG_CHANGED. With another status than SZG_DONE *outcome stays, with another than SZG_BAD_BLOCK *bad
 * stays. */
uint32_t szg_front_probe(szg_front *front, const uint8_t *bytes, size_t length, const szg_man *men, size_t count,
                         uint8_t mover, int8_t class_of_position, int64_t *outcome, szg_bad_block *bad);

/* The stored number of a DTZ value in a class: see szg_number. With another status than SZG_DONE *number stays. */
uint32_t szg_front_number(szg_front *front, uint8_t part, int8_t class_of_position, uint16_t value,
                          uint32_t *number);

/* Closes the front. A second call does nothing. */
void szg_close_front(szg_front *front);

/* ---- Tablebases: results of positions.
 *
 * A tablebase is a list of tables whose files stay in the caller's memory, mapped files say (see "Mapped files" above). A
 * position of two to six men is probed with its captures, the right to capture en passant and the fifty-move counter, and so
 * needs the tables of all materials that its captures (for DTZ and moves, its moves) lead to. Castling rights aren't known
 * to tables. It is proved that a result is what the blocks of the added files spell for the position and for those that it
 * leads to.
 *
 * szg_tablebase_add reads and checks all of a file but its blocks. It keeps headers, codes and dictionaries; sparse indexes
 * and block lengths are read where they are. A probe verifies a block when the szg_tablebase first reads it, and keeps a bit
 * for each block of a part and side of a table that it reads, 2 MB for a file of 1.1 GB (if memory is refused, it verifies
 * blocks again). It takes no lock. If a file's bytes change, results may be wrong, or there is none
 * (SZG_CHANGED if they lead to no block), and nothing worse. Threads that share tables use a szg_tablebase each, made by
 * szg_share_tablebase. szg_folders, below, finds and maps the files too. */

/* Tables that were added. Initialise it with SZG_NO_TABLEBASE, let only the calls change it, and pass it to one call at a time.
 * What szg_table says of copies and of cache lines holds here, too. */
typedef struct szg_tablebase { void *held; } szg_tablebase;

/* A tablebase without a table, as SZG_NO_TABLE. */
#ifdef __cplusplus
#define SZG_NO_TABLEBASE (szg_tablebase{})
#else
#define SZG_NO_TABLEBASE ((szg_tablebase){0})
#endif

/* The table for which a position has no result: *missing is written with the statuses SZG_MISSING, SZG_BAD_BLOCK, SZG_CHANGED,
 * SZG_NO_CLASS and SZG_OTHER_MATERIAL to SZG_WRONG_SIDE, and is otherwise unchanged. */
typedef struct szg_missing {
    char name[8];    /* its material, as "KQvKR", and a zero byte */
    bool dtz;        /* whether it is a DTZ table */
    uint32_t block;  /* SZG_BAD_BLOCK: the block's number in its subtable; else unchanged */
    uint64_t offset; /* SZG_BAD_BLOCK: the block's offset in the file; else unchanged */
} szg_missing;

/* Adds a table behind the others. `bytes` are those of its file, which must be there and must not change until each tablebase
 * that has the table is closed: if they do, results may be wrong, and no more than that. Of two tables of one material and kind
 * the first counts. Tablebases that share the other tables do not get this one. The statuses are those of szg_open_front. With
 * another status than SZG_DONE the tables stay. */
uint32_t szg_tablebase_add(szg_tablebase *tablebase, const char *name, size_t name_length, bool dtz, const uint8_t *bytes,
                           size_t length, szg_answer *answer);

/* Makes `second` a second handle of the tables that `tablebase` has now, as szg_share. SZG_CLOSED: it has none. */
uint32_t szg_share_tablebase(szg_tablebase *tablebase, szg_tablebase *second);

/* No square: an en passant square of 64 or more is none. */
#define SZG_NO_SQUARE 64

/* A position and its fifty-move counter, for the calls below: 32 bytes. */
typedef struct szg_position {
    szg_man men[SZG_MAX_MEN]; /* the first `count` of these */
    uint8_t mover;            /* enum szg_color */
    uint8_t en_passant;       /* the square that a pawn has just passed over by a double step, or SZG_NO_SQUARE */
    uint32_t counter;         /* plies since the last capture or pawn move, below 10^9 */
    size_t count;             /* 2 to 6 */
} szg_position;

/* Reads a text in Forsyth-Edwards Notation (FEN), as `szg probe` does: the board, w or b, - for castling, the en passant square or
 * -, and two counters, of which the first is the fifty-move counter. One space is between two fields. Both counters may be left out;
 * then it is 0. SZG_MAN: the text has another form, or castling rights. SZG_MEN, SZG_SAME_SQUARE, SZG_PAWN_RANK, SZG_EN_PASSANT and
 * SZG_IN_CHECK: it is no position, as in szg_tablebase_wdl; SZG_EN_PASSANT also for another field than - or a square on rank 3 or
 * 6. With SZG_DONE the calls below take what is written as the text's position, and men[count] and those after it stay. With another
 * status than SZG_DONE *position stays. */
uint32_t szg_read_fen(const char *text, size_t length, szg_position *position);

/* The class of a position for the side to move (2 win, 1 cursed win, 0 draw, -1 blessed loss, -2 loss), at a fifty-move counter
 * of 0. `en_passant` is the square that a pawn has just passed over by a double step, or SZG_NO_SQUARE. The statuses SZG_MAN to
 * SZG_PAWN_RANK, SZG_EN_PASSANT and SZG_IN_CHECK say why it is no position (SZG_MEN: not two to six men, or a colour without
 * exactly one king). With another status than SZG_DONE *class_of_position stays. */
uint32_t szg_tablebase_wdl(szg_tablebase *tablebase, const szg_man *men, size_t count, uint8_t mover, uint8_t en_passant,
                           int8_t *class_of_position, szg_missing *missing);

/* In a list of classes: there is none. */
#define SZG_NO_RESULT 127

/* The classes of the positions of many FENs, in one call: `fens` has one in each line, with a line feed between two lines. Writes
 * to `classes`, for each of the first `count` lines, the class by szg_read_fen and szg_tablebase_wdl, or SZG_NO_RESULT if one of
 * them has another status than SZG_DONE. Lines that aren't there are empty. Returns the first such status, or SZG_DONE. */
uint32_t szg_tablebase_wdl_of_fens(szg_tablebase *tablebase, const char *fens, size_t length, int8_t *classes, size_t count);

/* The class of a position, and its DTZ in plies: to the next capture or pawn move that keeps the class, or to mate; 100 more for
 * a cursed win or a blessed loss, negative for a loss, 0 for a draw. What a table counts in moves is doubled, and may be one ply
 * more. */
typedef struct szg_distance {
    int8_t class_of_position; /* with the fifty-move counter */
    int64_t dtz;
} szg_distance;

/* The class and the DTZ of a position. `counter` is the number of plies since the last capture or pawn move: a win or a loss of
 * more plies than it leaves of 100 is a cursed win or a blessed loss. The statuses are those of szg_tablebase_wdl and
 * SZG_CONTRADICTION. With another status than SZG_DONE *distance stays. */
uint32_t szg_tablebase_dtz(szg_tablebase *tablebase, const szg_man *men, size_t count, uint8_t mover, uint8_t en_passant,
                           uint32_t counter, szg_distance *distance, szg_missing *missing);

/* A legal move, with what it gives the player who makes it. */
typedef struct szg_move {
    uint8_t from, to;
    uint8_t promotion;        /* enum szg_kind; 0 for none */
    int8_t class_of_position; /* with the fifty-move counter */
    int64_t dtz;              /* from the position before the move; 1 for a move that mates */
    bool zeroing;             /* a capture or a pawn move */
    bool mate;
    bool stalemate;
} szg_move;

/* No position of two to six men has more legal moves. */
#define SZG_MAX_MOVES 128

/* The legal moves of a position, the best first: by class, then a win by the least DTZ and a loss by the greatest. They are
 * written to the beginning of `moves`, a list of `capacity` items, and their number to *move_count; 0 is mate or stalemate. The
 * statuses are those of szg_tablebase_dtz, and SZG_RANGE for a list that is too short (one of SZG_MAX_MOVES items never is). With
 * another status than SZG_DONE the list and *move_count stay. */
uint32_t szg_tablebase_moves(szg_tablebase *tablebase, const szg_man *men, size_t count, uint8_t mover, uint8_t en_passant,
                             uint32_t counter, szg_move *moves, size_t capacity, size_t *move_count, szg_missing *missing);

/* Closes the tablebase. A second call does nothing. */
void szg_close_tablebase(szg_tablebase *tablebase);

/* ---- Folders: the files of a tablebase are found in folders, mapped and added when a position first needs them. These calls are
 * C over those above, and are tested, not proved. A probe takes a lock and memory only where a file is not open yet. A file must
 * not be truncated while it is mapped (see "Mapped files" above). */

/* The tables of folders, for one thread. */
typedef struct szg_folders szg_folders;

/* Opens the tables of folders: `paths` has their paths, separated by ':', and the first that has a file counts. No file is looked
 * for yet. SZG_MEMORY leaves *folders unchanged. */
uint32_t szg_open_folders(const char *paths, szg_folders **folders);

/* From now on tables whose greatest span bits exceed `bits` are refused, with the reason SZG_SPAN_BITS and offset 0, when a position
 * first needs them (see szg_front_span): for all handles of these tables. */
void szg_limit_folders(szg_folders *folders, uint8_t bits);

/* Makes *second a second handle of the same tables, for another thread. A file is mapped, and kept in memory, once for all. */
uint32_t szg_share_folders(szg_folders *folders, szg_folders **second);

/* The name of a table's material, as "KQvKR", and a zero byte; and whether it is a DTZ table. */
typedef struct szg_table_name {
    char name[8];
    bool dtz;
} szg_table_name;

/* The tables that the folders have now, by the names of their files, such as KQvKR.rtbw: no file is opened. Writes as many as
 * there is room for to the beginning of `tables`, a list of `capacity` items, in no order, and the most men of a WDL table to
 * *most_men, 0 if there is none. Returns the number of tables: the list is cut if this is above the capacity. A table that several
 * folders have counts once. A folder that can't be read has none. */
size_t szg_folders_list(szg_folders *folders, szg_table_name *tables, size_t capacity, uint8_t *most_men);

/* The class of a position, as szg_tablebase_wdl. SZG_MISSING: the file of missing->name can't be opened or mapped, and errno says
 * why: ENOENT if no folder has it. SZG_REFUSED: it is no table, missing->offset is the offset of the check that fails, and
 * missing->block the reason, as enum szg_reason. SZG_MEMORY: there is no memory to add it. */
uint32_t szg_folders_wdl(szg_folders *folders, const szg_man *men, size_t count, uint8_t mover, uint8_t en_passant,
                         int8_t *class_of_position, szg_missing *missing);

/* The class and the DTZ of a position, as szg_tablebase_dtz, with the statuses of szg_folders_wdl too. */
uint32_t szg_folders_dtz(szg_folders *folders, const szg_man *men, size_t count, uint8_t mover, uint8_t en_passant,
                         uint32_t counter, szg_distance *distance, szg_missing *missing);

/* The ranked moves of a position, as szg_tablebase_moves, with the statuses of szg_folders_wdl too. */
uint32_t szg_folders_moves(szg_folders *folders, const szg_man *men, size_t count, uint8_t mover, uint8_t en_passant,
                           uint32_t counter, szg_move *moves, size_t capacity, size_t *move_count, szg_missing *missing);

/* Closes a handle; the last one unmaps the files. NULL is no handle. */
void szg_close_folders(szg_folders *folders);

#ifdef __cplusplus
}
#endif
#endif
