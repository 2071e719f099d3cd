/* The comparison of the library with the reader of table_reader.h: a case is a file. Compared are its verdict, reason and
 * offset, and if it is accepted its sizes, values, byte ranges, numbers, indexes and placements. Of half of the cases the front is
 * opened too, and its look-ups are compared with blocks as they are and with changed bytes: the value, or the bad block.
 * cases.c and guided.c include it. */
#include "made_tables.h"
#include <stdio.h>
#include <stdlib.h>
#include <string.h>

enum { REASONS = 19, LISTED_MOST = 300000 };

static struct {
    uint64_t cases, ended[REASONS], differences, values, blocks, fetched, bad, placements, indexes, inverses, numbers;
} counts;

/* The case that is compared now. One with a difference is written into `folder`, unless that is NULL; `seed` is for its name. */
static struct {
    const char *name, *folder;
    bool dtz;
    const uint8_t *bytes;
    size_t length;
    uint64_t seed, number;
    bool differs;
} now;

static void keep_case(void) {
    char path[4096];
    if (!now.folder) return;
    snprintf(path, sizeof path, "%s/seed%llu_case%llu_%s.%s", now.folder, (unsigned long long)now.seed, (unsigned long long)now.number,
             now.name, now.dtz ? "rtbz" : "rtbw");
    FILE *file = fopen(path, "wb");
    if (file) {
        fwrite(now.bytes, 1, now.length, file);
        fclose(file);
        printf("%s\n", path);
    } else
        perror(path);
    fflush(stdout);
}

static void same(const char *what, int64_t library, int64_t reader) {
    if (library == reader) return;
    if (!now.differs) {
        now.differs = true;
        counts.differences++;
        keep_case();
    }
    printf("%s %s, seed %llu, case %llu: %s: the library %lld, the reader %lld\n", now.name, now.dtz ? "dtz" : "wdl",
           (unsigned long long)now.seed, (unsigned long long)now.number, what, (long long)library, (long long)reader);
}

/* ---- Calls on bytes */

static const szg_answer NO_ANSWER = {77777, 77};

static void same_answer(const char *what, const reader_table *t, uint32_t status, const szg_answer *answer) {
    same(what, status, t->reason ? SZG_REFUSED : SZG_DONE);
    if (!t->reason) return;
    same("offset", (int64_t)answer->place, (int64_t)t->at);
    same("reason", answer->reason, t->reason);
}

#define TABLE_WORDS now.name, strlen(now.name), now.dtz, now.bytes, now.length

static void compare_verdict(const reader_table *t) {
    szg_answer answer = NO_ANSWER;
    same_answer("szg_check", t, szg_check(TABLE_WORDS, &answer), &answer);
    if (!t->reason) same("length", (int64_t)answer.place, (int64_t)t->at);
}

/* Refused bytes are refused by each call, which leaves its results as they were and its handle empty. */
static void compare_refused(const reader_table *t) {
    szg_answer answer = NO_ANSWER;
    szg_table table = SZG_NO_TABLE;
    uint64_t size = 12345, index = 0;
    uint16_t value = 4321;
    switch (random_below(3)) {
    case 0:
        same_answer("szg_open", t, szg_open(TABLE_WORDS, &table, &answer), &answer);
        same("szg_get of no table", szg_get(&table, 0, 0, 0, &value), SZG_CLOSED);
        break;
    case 1: same_answer("szg_size", t, szg_size(TABLE_WORDS, 0, 0, &size, &answer), &answer); break;
    default: same_answer("szg_values_at", t, szg_values_at(TABLE_WORDS, 0, 0, &index, 1, &value, 1, &answer), &answer); break;
    }
    same("kept", size + value, 12345 + 4321);
    szg_close(&table);
}

/* ---- Calls on a handle: of a table, or of a front in bytes whose blocks may be changed */

static szg_table table = SZG_NO_TABLE;
static szg_front front = SZG_NO_FRONT;
static bool is_front;
static szg_bad_block bad;
static const szg_bad_block NO_BLOCK = {88, 888};

static uint32_t size_by(uint8_t part, uint8_t side, uint64_t *size) {
    return is_front ? szg_front_size(&front, part, side, size) : szg_positions(&table, part, side, size);
}

static uint32_t get_by(const reader_table *t, uint8_t part, uint8_t side, uint64_t index, uint16_t *value) {
    return is_front ? szg_front_get(&front, t->bytes, t->length, part, side, index, value, &bad) : szg_get(&table, part, side, index, value);
}

static uint64_t any_index(const reader_subtable *sub) {
    if (!sub->constant && random_one_in(3)) { /* at a block's first value or its neighbours */
        uint64_t index = sub->start[random_below(sub->blocks)] + random_below(3) - 1;
        if (index < sub->size) return index;
    }
    return random_one_in(8) ? sub->size - 1 : random_below(sub->size);
}

static void compare_sizes(const reader_table *t) {
    szg_answer answer = NO_ANSWER;
    for (int part = 0; part < 5; part++)
        for (int side = 0; side < 3; side++) {
            const reader_subtable *sub = reader_subtable_of(t, part, side);
            uint64_t size = 7;
            same("status of a size", size_by((uint8_t)part, (uint8_t)side, &size), sub ? SZG_DONE : SZG_RANGE);
            same("positions", (int64_t)size, sub ? (int64_t)sub->size : 7);
            if (is_front) continue;
            size = 7;
            same("szg_size", szg_size(TABLE_WORDS, (uint8_t)part, (uint8_t)side, &size, &answer), sub ? SZG_DONE : SZG_RANGE);
            same("size", (int64_t)size, sub ? (int64_t)sub->size : 7);
        }
}

/* The offset of a block in the file. */
static uint64_t offset_of(const reader_table *t, const reader_subtable *sub, uint32_t block) {
    return sub->constant ? 0 : (uint64_t)(sub->packed - t->bytes) + ((uint64_t)block << sub->block_bits);
}

/* What a look-up has to say: its status, and its value or its bad block; the other stays. */
static void same_value(const reader_table *t, const reader_subtable *sub, bool decodes, uint32_t block, uint32_t status, uint16_t value, uint16_t due) {
    same("status of a look-up", status, decodes ? SZG_DONE : SZG_BAD_BLOCK);
    same("value", value, decodes ? due : 4321);
    same("bad block", bad.block, decodes ? 88 : block);
    same("offset of a bad block", (int64_t)bad.offset, decodes ? 888 : (int64_t)offset_of(t, sub, block));
    counts.values++;
    counts.bad += !decodes;
}

static void compare_value(const reader_table *t, const reader_subtable *sub, uint64_t index) {
    uint16_t value = 4321, due = 4321;
    uint32_t block = 99;
    uint8_t part = (uint8_t)sub->part, side = (uint8_t)sub->side;
    bool decodes = reader_fetch(sub, index, &due, &block);
    bad = NO_BLOCK;
    if (is_front && !sub->constant) { /* the bytes up to the block's end are enough */
        uint64_t end = offset_of(t, sub, block + 1);
        same("szg_front_get with a byte too few", szg_front_get(&front, t->bytes, end - 1, part, side, index, &value, &bad), SZG_CHANGED);
        same("szg_front_get with enough bytes", szg_front_get(&front, t->bytes, end, part, side, index, &value, &bad), decodes ? SZG_DONE : SZG_BAD_BLOCK);
        value = 4321, bad = NO_BLOCK;
    }
    uint32_t status = get_by(t, part, side, index, &value);
    same_value(t, sub, decodes, block, status, value, due);
    counts.fetched += is_front;
}

/* The same by the bytes that the value needs, and by one more or one less. */
static void compare_block(const reader_table *t, const reader_subtable *sub, uint64_t index) {
    szg_byte_range range = {77, 77};
    uint16_t value = 4321, due = 4321;
    uint32_t block = 99;
    uint8_t part = (uint8_t)sub->part, side = (uint8_t)sub->side;
    same("szg_front_find", szg_front_find(&front, part, side, index, &range), SZG_DONE);
    counts.blocks++;
    bool decodes = reader_fetch(sub, index, &due, &block);
    uint64_t offset = offset_of(t, sub, block);
    same("offset of a value", (int64_t)range.offset, (int64_t)offset);
    same("bytes of a value", (int64_t)range.count, sub->constant ? 0 : (int64_t)1 << sub->block_bits);
    bad = NO_BLOCK;
    if (!sub->constant) {
        uint64_t others = random_one_in(2) || offset + range.count == t->length ? range.count - 1 : range.count + 1;
        same("szg_front_value of another length", szg_front_value(&front, part, side, index, t->bytes + offset, others, &value, &bad), SZG_CHANGED);
        same("what stays then", value + bad.block + (int64_t)bad.offset, 4321 + 88 + 888);
    } else
        same("szg_front_value of a constant", szg_front_value(&front, part, side, index, t->bytes, random_below(t->length), &value, &bad), SZG_DONE);
    uint32_t status = szg_front_value(&front, part, side, index, t->bytes + offset, range.count, &value, &bad);
    same_value(t, sub, decodes, block, status, value, due);
}

static void compare_lists(const reader_subtable *sub) {
    static uint16_t found[LISTED_MOST], due[LISTED_MOST];
    uint8_t part = (uint8_t)sub->part, side = (uint8_t)sub->side;
    uint64_t indexes[3];
    uint16_t values[3] = {9, 9, 9};
    szg_answer answer = NO_ANSWER;
    if (random_one_in(4)) {
        for (int i = 0; i < 3; i++) indexes[i] = any_index(sub);
        same("szg_values_at", szg_values_at(TABLE_WORDS, part, side, indexes, 3, values, 3, &answer), SZG_DONE);
        for (int i = 0; i < 3; i++) {
            uint32_t block;
            reader_fetch(sub, indexes[i], due, &block);
            same("value of a list", values[i], *due);
        }
    }
    if (sub->size > (sub->constant ? 40000 : LISTED_MOST) || !random_one_in(sub->constant ? 16 : 2)) return;
    reader_values(sub, due);
    bool is_of_file = random_one_in(4);
    same("all values", is_of_file ? szg_values(TABLE_WORDS, part, side, found, sub->size, &answer) : szg_all(&table, part, side, found, sub->size), SZG_DONE);
    same("too short a list", is_of_file ? szg_values(TABLE_WORDS, part, side, found, sub->size - 1, &answer) : szg_all(&table, part, side, found, sub->size - 1), SZG_RANGE);
    counts.values += sub->size;
    if (memcmp(found, due, sub->size * sizeof *due) == 0) return;
    for (uint64_t i = 0; i < sub->size; i++)
        if (found[i] != due[i]) {
            printf("index %llu\n", (unsigned long long)i);
            same("value of all", found[i], due[i]);
            return;
        }
}

static void compare_numbers(const reader_table *t, int part, uint16_t value) {
    for (int class_of_position = -3; class_of_position <= 3; class_of_position++) {
        uint32_t number = 55555, due = 55555, status = SZG_RANGE;
        uint8_t of = (uint8_t)part;
        int8_t in = (int8_t)class_of_position;
        if (t->dtz && part < t->part_count && -2 <= class_of_position && class_of_position <= 2)
            status = reader_number(t, part, class_of_position, value, &due);
        same("status of a number", is_front ? szg_front_number(&front, of, in, value, &number) : szg_number(&table, of, in, value, &number), status);
        same("number", number, due);
        counts.numbers++;
    }
}

/* Past the last index of a side, or in one that isn't there. */
static void compare_outside(const reader_table *t, uint8_t part, uint8_t side) {
    const reader_subtable *sub = reader_subtable_of(t, part, side);
    uint64_t past = sub ? sub->size : 0;
    uint16_t value = 9;
    szg_byte_range range = {77, 77};
    same("status past the size", get_by(t, part, side, past, &value), SZG_RANGE);
    if (!is_front) return;
    same("szg_front_find past the size", szg_front_find(&front, part, side, past, &range), SZG_RANGE);
    same("szg_front_value past the size", szg_front_value(&front, part, side, past, t->bytes, t->length, &value, &bad), SZG_RANGE);
    same("byte range past the size", (int64_t)(range.offset + range.count), 154);
}

/* ---- Placements */

/* Men of the table's material on random squares, mostly a placement; sometimes with colours exchanged or one man changed. */
static void any_men(const reader_material *m, szg_man *men) {
    bool exchanged = random_one_in(3);
    uint64_t taken = 0;
    for (int i = 0; i < m->count; i++) {
        bool pawn = m->codes[i] % 8 == 1;
        int square;
        do
            square = pawn ? 8 + (int)random_below(48) : random_one_in(3) ? 9 * (int)random_below(8) : (int)random_below(64);
        while (taken >> square & 1);
        taken |= (uint64_t)1 << square;
        men[i] = (szg_man){m->codes[i] % 8, (m->codes[i] > 8) != exchanged, (uint8_t)square};
    }
    for (int i = m->count - 1; i > 0; i--) {
        uint64_t j = random_below((uint64_t)i + 1);
        szg_man kept = men[i];
        men[i] = men[j], men[j] = kept;
    }
    szg_man *man = &men[random_below((uint64_t)m->count)];
    switch (random_below(24)) {
    case 0: man->kind = (uint8_t)random_below(8); break;
    case 1: man->color = (uint8_t)random_below(3); break;
    case 2: man->square = (uint8_t)random_below(70); break;
    default: break;
    }
}

/* What a probe gives for an accepted placement. */
static uint32_t reader_probe(const reader_table *t, const szg_spot *spot, int class_of_position, int64_t *outcome, uint32_t *block) {
    uint16_t value = 0;
    uint32_t number = 0;
    if (!reader_fetch(reader_subtable_of(t, spot->part, spot->side), spot->index, &value, block)) return SZG_BAD_BLOCK;
    if (!t->dtz) {
        if (value > 4) return SZG_NO_CLASS;
        *outcome = value - 2;
        return SZG_DONE;
    }
    uint32_t status = reader_number(t, spot->part, class_of_position, value, &number);
    if (status == SZG_DONE) *outcome = number;
    return status;
}

static void compare_placement(const reader_table *t) {
    szg_man men[MEN_MOST + 2];
    szg_spot found = {7, 7, 7777}, due = found;
    int64_t outcome = 33333, due_outcome = outcome;
    uint32_t block = 88;
    for (uint8_t i = 0; i < MEN_MOST + 2; i++) men[i] = (szg_man){SZG_KNIGHT, SZG_BLACK, i};
    any_men(&t->material, men);
    size_t count = random_one_in(40) ? random_below(MEN_MOST + 3) : (size_t)t->material.count;
    uint8_t mover = (uint8_t)random_below(random_one_in(30) ? 3 : 2);
    int8_t class_of_position = (int8_t)((int)random_below(7) - 3);
    uint32_t status = reader_index(t, men, count, mover, &due);
    same("status of an index", is_front ? szg_front_index(&front, men, count, mover, &found) : szg_index(&table, men, count, mover, &found), status);
    same("part", found.part, due.part);
    same("side", found.side, due.side);
    same("index", (int64_t)found.index, (int64_t)due.index);
    counts.placements++;
    bool is_indexed = status == SZG_DONE, has_class = !t->dtz || abs(class_of_position) <= 2;
    const reader_subtable *sub = is_indexed ? reader_subtable_of(t, due.part, due.side) : NULL;
    if (is_indexed) {
        counts.indexes++;
        same("index below the size", due.index < sub->size, true);
        status = reader_probe(t, &due, class_of_position, &due_outcome, &block);
    }
    /* what is no placement is refused before a class that isn't one */
    if (!has_class && (status < SZG_MAN || status > SZG_PAWN_RANK)) status = SZG_RANGE, due_outcome = outcome;
    if (is_front && is_indexed && has_class && !sub->constant)
        same("szg_front_probe with a byte too few", szg_front_probe(&front, t->bytes, offset_of(t, sub, block + 1) - 1, men, count, mover, class_of_position, &outcome, &bad), SZG_CHANGED);
    bad = NO_BLOCK;
    same("status of a probe", is_front ? szg_front_probe(&front, t->bytes, t->length, men, count, mover, class_of_position, &outcome, &bad)
                                       : szg_probe(&table, men, count, mover, class_of_position, &outcome), status);
    same("outcome", outcome, due_outcome);
    same("bad block of a probe", bad.block, status == SZG_BAD_BLOCK ? block : 88);
}

/* The placement of an index: the reader finds this index for it. Nothing is written where it is refused. */
static void compare_inverse(const reader_table *t, const reader_subtable *sub, uint64_t index) {
    struct { szg_man men[MEN_MOST + 1]; size_t count; uint8_t mover; } found, kept;
    const reader_material *m = &t->material;
    uint8_t part = (uint8_t)sub->part, side = (uint8_t)sub->side;
    szg_spot spot = {7, 7, 7777};
    memset(&found, 0x5a, sizeof found), memset(&kept, 0x5a, sizeof kept);
    /* the stored side has no name of its own where both sides have the same men */
    bool is_black = t->dtz && m->symmetric && m->has_pawns && sub->flags & 1;
    size_t capacity = random_one_in(4) ? random_below((uint64_t)m->count) : (size_t)m->count + random_below(2);
    if (random_one_in(8)) index = random_one_in(2) ? sub->size : UINT64_MAX - random_below(2);
    uint32_t due = index >= sub->size           ? SZG_RANGE
                   : is_irregular(t, sub) ? SZG_IRREGULAR
                   : is_black                    ? SZG_WRONG_SIDE
                   : capacity < (size_t)m->count ? SZG_RANGE
                                                 : SZG_DONE;
    same("status of a placement", is_front ? szg_front_placement(&front, part, side, index, found.men, capacity, &found.count, &found.mover)
                                           : szg_placement(&table, part, side, index, found.men, capacity, &found.count, &found.mover), due);
    if (due == SZG_DONE) {
        same("men of a placement", (int64_t)found.count, m->count);
        same("status of its index", reader_index(t, found.men, found.count, found.mover, &spot), SZG_DONE);
        same("part of its index", spot.part, part);
        same("side of its index", spot.side, side);
        same("its index", (int64_t)spot.index, (int64_t)index);
        counts.inverses++;
        memcpy(&found, &kept, sizeof(szg_man) * found.count);
        found.count = kept.count, found.mover = kept.mover;
    }
    same("what stays of a placement", memcmp(&found, &kept, sizeof kept), 0);
}

/* ---- Accepted tables and fronts */

static void compare_accepted(const reader_table *t) {
    szg_answer answer = NO_ANSWER;
    is_front = false;
    same("szg_open", szg_open(TABLE_WORDS, &table, &answer), SZG_DONE);
    if (now.differs) return;
    if (random_one_in(4)) compare_sizes(t);
    for (int i = 0; i < t->subtable_count; i++) {
        const reader_subtable *sub = &t->subtables[i];
        for (int turn = 0; turn < 4; turn++) compare_value(t, sub, any_index(sub)), compare_inverse(t, sub, any_index(sub));
        compare_outside(t, (uint8_t)sub->part, (uint8_t)sub->side);
        compare_lists(sub);
    }
    compare_numbers(t, (int)random_below(5), (uint16_t)random_below(random_one_in(2) ? 4 : 65536));
    for (int i = 0; i < 8; i++) compare_placement(t);
    szg_close(&table);
}

/* The look-ups of a front that was opened, in its bytes as they are and with some bytes of blocks changed. */
static void compare_front_look_ups(const reader_table *t, uint8_t *bytes) {
    for (int turn = 0; turn < 3; turn++) {
        for (int i = 0; i < t->subtable_count; i++) {
            const reader_subtable *sub = &t->subtables[i];
            for (int look = 0; look < 3; look++) {
                compare_value(t, sub, any_index(sub));
                compare_block(t, sub, any_index(sub));
                compare_inverse(t, sub, any_index(sub));
            }
            if (sub->constant) continue;
            uint64_t length = (uint64_t)sub->blocks << sub->block_bits;
            bytes[(uint64_t)(sub->packed - t->bytes) + random_below(length)] ^= (uint8_t)(1 + random_below(255));
        }
        compare_placement(t);
    }
}

/* The front of a case, of which the blocks may be damaged already. */
static void compare_front(const reader_material *material) {
    static uint8_t bytes[MADE_MOST];
    reader_table t;
    szg_answer answer = NO_ANSWER;
    uint64_t size = 7;
    if (now.length > sizeof bytes) return;
    is_front = true;
    memcpy(bytes, now.bytes, now.length);
    reader_read(&t, material, now.dtz, bytes, now.length, true);
    same_answer("szg_open_front", &t, szg_open_front(now.name, strlen(now.name), now.dtz, bytes, now.length, &front, &answer), &answer);
    if (t.reason) {
        same("szg_front_size of no front", szg_front_size(&front, 0, 0, &size), SZG_CLOSED);
        same("size of no front", (int64_t)size, 7);
    } else if (!now.differs) {
        if (random_one_in(4)) compare_sizes(&t);
        compare_numbers(&t, (int)random_below(5), (uint16_t)random_below(4));
        compare_outside(&t, (uint8_t)random_below(5), (uint8_t)random_below(3));
        compare_front_look_ups(&t, bytes);
    }
    szg_close_front(&front);
    reader_free(&t);
}

/* ---- Cases */

/* Compares a case; what is asked of an accepted table follows from the state of made_tables.h. Returns whether all is equal. */
static bool compare(const char *name, bool dtz, const uint8_t *bytes, size_t length) {
    reader_material material;
    reader_table t;
    now.name = name, now.dtz = dtz, now.bytes = bytes, now.length = length, now.differs = false;
    now.number = counts.cases++;
    if (!reader_parse(name, strlen(name), &material)) {
        fprintf(stderr, "%s is no material\n", name);
        exit(2);
    }
    reader_read(&t, &material, dtz, bytes, length, false);
    counts.ended[t.reason]++;
    compare_verdict(&t);
    if (t.reason)
        compare_refused(&t);
    else
        compare_accepted(&t);
    reader_free(&t);
    if (random_one_in(2)) compare_front(&material);
    return !now.differs;
}

/* Prints the counts. Returns 1 if there is a difference, or if a reason never came; else 0. */
int compare_report(void) {
    int missing = 0;
    for (uint32_t reason = 0; reason < REASONS; reason++) {
        char name[SZG_TEXT_SIZE] = "good";
        if (reason) szg_reason_text(reason, name, sizeof name);
        printf("%s %llu\n", name, (unsigned long long)counts.ended[reason]);
        missing += counts.ended[reason] == 0;
    }
    printf("fetched %llu\nbad %llu\n", (unsigned long long)counts.fetched, (unsigned long long)counts.bad);
    printf("values %llu\nblocks %llu\nnumbers %llu\nplacements %llu\nindexes %llu\ninverses %llu\n", (unsigned long long)counts.values,
           (unsigned long long)counts.blocks, (unsigned long long)counts.numbers, (unsigned long long)counts.placements,
           (unsigned long long)counts.indexes, (unsigned long long)counts.inverses);
    printf("cases %llu\ndifferences %llu\n", (unsigned long long)counts.cases, (unsigned long long)counts.differences);
    missing += counts.bad == 0;
    return counts.differences || missing;
}
