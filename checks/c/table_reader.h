/* A second reader of tables, written from docs/FORMAT.md alone: it shares nothing with the crates. It keeps pointers
 * into the bytes, checks them in the order of the page's section 7, and finds a value by adding block lengths. The page's
 * sections are named where their rules are. Statuses and reasons have the names of szg.h. */
#ifndef TABLE_READER_H
#define TABLE_READER_H
#include "szg.h"

enum { MEN_MOST = 6, PARTS_MOST = 4, SYMBOL_MOST = 65536, VALUES_MOST = 256 };

typedef struct {
    int count;                /* men of both sides */
    uint8_t codes[MEN_MOST];  /* in the order of the name; 1 to 6, and 9 to 14 for the second side */
    bool symmetric, has_pawns, single; /* single: some man other than a king is the only one of its kind and colour */
    int lead_code, lead_pawns, other_pawns;
} reader_material;

typedef struct {
    int first, length;
    uint64_t ways, factor;
} reader_group;

typedef struct {
    int part, side;
    uint8_t slots[MEN_MOST];
    int group_count;
    reader_group groups[MEN_MOST];
    uint64_t size;
    uint8_t flags;
    bool constant;
    uint16_t value; /* of a constant subtable */
    int block_bits, span_bits, extra, max, min;
    uint32_t blocks;
    const uint8_t *lowest, *entries, *sparse, *lengths, *packed;
    uint32_t symbols;
    uint16_t *expanded; /* for each symbol the number of its values */
    uint64_t base[34];
    uint64_t *start; /* blocks + extra + 1 sums */
} reader_subtable;

typedef struct {
    uint64_t offset[4]; /* of each list's items in the file */
    uint32_t count[4];
    bool is_there, wide;
} reader_map;

typedef struct {
    reader_material material;
    bool dtz;
    const uint8_t *bytes;
    size_t length, at;
    bool is_front; /* the blocks are not read */
    int part_count, side_count, orders, subtable_count;
    reader_subtable subtables[2 * PARTS_MOST];
    reader_map maps[PARTS_MOST];
    size_t head_end; /* the offset of the first sparse index */
    uint32_t reason;  /* 0 if every check passes; then `at` is the table's length, else the offset of the failing check */
} reader_table;

/* Parses a name. Returns whether it is a material's. */
bool reader_parse(const char *name, size_t length, reader_material *material);

/* Reads a table; `bytes` must outlive it. Of a front the blocks aren't read, but the bytes must be long enough for them and for
 * what follows them. reader_free releases what a table holds, also after a refusal. */
void reader_read(reader_table *table, const reader_material *material, bool dtz, const uint8_t *bytes, size_t length, bool is_front);
void reader_free(reader_table *table);

/* The subtable of a part's side, or NULL. */
const reader_subtable *reader_subtable_of(const reader_table *table, int part, int side);

/* The value at an index, and its block, which may be damaged if a front was read. Returns false if this block has too few values;
 * then the value stays. In a constant subtable the block stays. */
bool reader_fetch(const reader_subtable *sub, uint64_t index, uint16_t *value, uint32_t *block);

/* Writes all values, `size` of them. */
void reader_values(const reader_subtable *sub, uint16_t *values);

/* The number of a DTZ value in a class from -2 to 2: SZG_DONE, SZG_DRAW or SZG_OUTSIDE_MAP. */
uint32_t reader_number(const reader_table *table, int part, int class_of_position, uint16_t value, uint32_t *number);

/* Where the table has a placement, or the status that refuses it, from SZG_MAN on. */
uint32_t reader_index(const reader_table *table, const szg_man *men, size_t count, uint8_t mover, szg_spot *spot);

/* Whether a subtable has no indexes: a lead man that is no pawn has a twin, or equal men are in several groups. */
bool is_irregular(const reader_table *table, const reader_subtable *sub);

/* The number of ways to choose k of n, for k up to 6. */
uint64_t reader_choose(uint64_t n, int k);

/* Cuts slots into groups and gives each its factor. Returns 0 or the reason of the refusal. */
uint32_t reader_groups(const reader_material *material, int part, const uint8_t *places, reader_subtable *sub);
#endif
