/* Probes of a tablebase with one damaged file, which libFuzzer chooses: no call crashes, the statuses are those of szg.h, a
 * call that fails writes nothing but *missing, and a second call returns the same. SAMPLES is the folder of the sample tables.
 *
 * An input: the number of the sample that is replaced, the number of positions, 12 bytes for each, and the file's bytes. */
#include "guided.h"

enum { POSITIONS = 8, MEN = 4, BYTES = 8 + MEN, LONGEST = 1 << 20 };
static struct { uint8_t *bytes; size_t length; } files[FILES];
/* The library isn't compiled for libFuzzer: instead each kind of answer counts as code that ran. */
enum { KINDS = 64 };
__attribute__((section("__libfuzzer_extra_counters"))) static uint8_t seen[8 * KINDS];
static void see(size_t what, uint64_t kind) { seen[KINDS * what + (kind < KINDS ? kind : KINDS - 1)]++; }

int LLVMFuzzerInitialize(int *count, char ***words) {
    (void)count, (void)words;
    for (int i = 0; i < FILES; i++) {
        char path[4096];
        write_path(path, sizeof path, getenv("SAMPLES"), i);
        FILE *f = fopen(path, "rb");
        if (!f) { perror(path); exit(2); }
        files[i].bytes = malloc(LONGEST);
        files[i].length = fread(files[i].bytes, 1, LONGEST, f);
        fclose(f);
    }
    return 0;
}

static int is_told(uint32_t status) {
    switch (status) {
    case SZG_DONE: case SZG_MISSING: case SZG_BAD_BLOCK: case SZG_NO_CLASS: case SZG_CONTRADICTION: case SZG_OTHER_MATERIAL:
    case SZG_IRREGULAR: case SZG_KINGS_TOUCH: case SZG_WRONG_SIDE: case SZG_MAN: case SZG_MEN: case SZG_SAME_SQUARE:
    case SZG_PAWN_RANK: case SZG_EN_PASSANT: case SZG_IN_CHECK: return 1;
    default: return 0;
    }
}

static int names_table(uint32_t status) {
    return status == SZG_MISSING || status == SZG_BAD_BLOCK || status == SZG_CHANGED || status == SZG_NO_CLASS ||
           (SZG_OTHER_MATERIAL <= status && status <= SZG_WRONG_SIDE);
}

/* Of *missing, whose bytes were 0, no more is written than the status says. */
static void require_missing(uint32_t status, szg_missing *missing) {
    static const szg_missing none;
    if (names_table(status)) {
        require(missing->name[0] == 'K' && strlen(missing->name) < sizeof missing->name, "the name of a table");
        require(status == SZG_BAD_BLOCK || (missing->block == 0 && missing->offset == 0), "a block without a cause");
    } else {
        require(!memcmp(missing, &none, sizeof none), "a missing table without a cause");
    }
    memset(missing, 0, sizeof *missing);
}

/* What the three calls return for a position; all bytes that they don't write are 0. */
struct answers {
    uint32_t wdl_status, dtz_status, moves_status;
    int8_t class_of_position;
    szg_distance distance;
    size_t move_count;
    szg_move moves[SZG_MAX_MOVES];
};

/* Two kings, a man of one of the tables, and another one; with odd bytes one of them is nothing of chess. */
static void ask(szg_tablebase *tablebase, const uint8_t *from, struct answers *a) {
    static const uint8_t kinds[FILES / 2] = {SZG_BISHOP, SZG_KNIGHT, SZG_PAWN, SZG_QUEEN, SZG_ROOK};
    szg_man men[MEN] = {{.kind = SZG_KING}, {.kind = SZG_KING, .color = SZG_BLACK}, {.kind = kinds[from[5] % 5], .color = from[5] / 5 % 2},
                        {.kind = 1 + from[6] % 5, .color = from[6] / 5 % 2}};
    szg_missing missing;
    memset(&missing, 0, sizeof missing);
    size_t count = from[0] < 220 ? 3 : 2 + from[0] % 3;
    uint8_t mover = from[1] < 250 ? from[1] % 2 : from[1], passed = from[2] < 200 ? SZG_NO_SQUARE : from[2] % 70;
    uint32_t counter = from[3] > 250 ? UINT32_MAX - from[4] : from[4];
    for (size_t i = 0; i < MEN; i++) men[i].square = from[8 + i] % (from[7] > 250 ? 65 : 64);
    if (from[7] > 240) men[from[7] % MEN].kind = from[5] % 9, men[from[7] % MEN].color = from[6] % 3;
    memset(a, 0, sizeof *a);
    a->wdl_status = szg_tablebase_wdl(tablebase, men, count, mover, passed, &a->class_of_position, &missing);
    require_missing(a->wdl_status, &missing);
    a->dtz_status = szg_tablebase_dtz(tablebase, men, count, mover, passed, counter, &a->distance, &missing);
    require_missing(a->dtz_status, &missing);
    a->moves_status = szg_tablebase_moves(tablebase, men, count, mover, passed, counter, a->moves, SZG_MAX_MOVES, &a->move_count, &missing);
    require_missing(a->moves_status, &missing);
}

static void examine(const struct answers *a) {
    static const struct answers none;
    see(0, a->wdl_status), see(1, a->dtz_status), see(2, a->moves_status), see(3, (uint64_t)a->class_of_position + 2);
    see(4, (uint64_t)llabs(a->distance.dtz)), see(5, a->move_count);
    require(is_told(a->wdl_status) && is_told(a->dtz_status) && is_told(a->moves_status), "another status");
    require(a->wdl_status != SZG_CONTRADICTION, "a contradiction without numbers");
    require(a->wdl_status == SZG_DONE ? abs(a->class_of_position) <= 2 : a->class_of_position == 0, "the class");
    if (a->dtz_status != SZG_DONE) require(!memcmp(&a->distance, &none.distance, sizeof a->distance), "a distance after a refusal");
    if (a->moves_status != SZG_DONE) {
        require(a->move_count == 0 && !memcmp(a->moves, none.moves, sizeof a->moves), "moves after a refusal");
        return;
    }
    require(a->move_count <= SZG_MAX_MOVES, "too many moves");
    for (size_t i = 0; i < a->move_count; i++) {
        const szg_move *m = &a->moves[i];
        require(m->from < 64 && m->to < 64 && m->from != m->to && abs(m->class_of_position) <= 2, "a move");
        require(i == 0 || m[-1].class_of_position >= m->class_of_position, "the order of moves");
        require((m->dtz > 0) == (m->class_of_position > 0) && (m->dtz < 0) == (m->class_of_position < 0), "the sign of a move's DTZ");
        require(!m->mate || (m->class_of_position > 0 && m->dtz == 1), "a mate");
        require(!m->stalemate || m->class_of_position == 0, "a stalemate");
    }
}

int LLVMFuzzerTestOneInput(const uint8_t *input, size_t length) {
    static struct answers first, second;
    szg_tablebase tablebase = SZG_NO_TABLEBASE;
    szg_answer answer;
    if (length < 2) return 0;
    size_t positions = input[1] % POSITIONS + 1, used = 2 + positions * BYTES;
    if (length < used) return 0;
    for (int i = 0; i < FILES; i++) {
        int is_replaced = i == input[0] % (FILES + 1);
        uint32_t status = szg_tablebase_add(&tablebase, name_of(i), strlen(name_of(i)), i % 2,
                                            is_replaced ? input + used : files[i].bytes, is_replaced ? length - used : files[i].length, &answer);
        require(status == SZG_DONE || (is_replaced && status == SZG_REFUSED), "a table is refused");
        if (status == SZG_REFUSED) see(6, answer.reason), see(7, answer.place / 4);
    }
    for (size_t i = 0; i < positions; i++) {
        ask(&tablebase, input + 2 + i * BYTES, &first);
        examine(&first);
        ask(&tablebase, input + 2 + i * BYTES, &second);
        require(!memcmp(&first, &second, sizeof first), "another answer");
    }
    szg_close_tablebase(&tablebase);
    return 0;
}
