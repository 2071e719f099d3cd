/* Calls the library COUNT times on an opened table, for counts of instructions: costs FOLDER CALL COUNT
 * CALL is check, open, get (short words), get_long (long pairs), index or share; again probes one position by a tablebase, whose
 * block is verified once, and behind those of four materials in turn, whose tables were added behind those of 65 others, four times
 * each. With keep it prints instead how many bytes of heap a tablebase keeps for FOLDER's large.rtbw. */
#include "trying.h"
#include <malloc.h>

static const szg_man MEN[3] = {{SZG_KING, SZG_WHITE, 60}, {SZG_QUEEN, SZG_WHITE, 0}, {SZG_KING, SZG_BLACK, 7}};

static size_t heap(void) {
    struct mallinfo2 info = mallinfo2();
    return info.uordblks + info.hblkhd;
}

static int keep(const char *folder) {
    szg_tablebase tablebase = SZG_NO_TABLEBASE;
    load(folder, "large.rtbw", "KQRvK", false);
    size_t before = heap();
    want("add", szg_tablebase_add(&tablebase, OF_FILE, &answer), SZG_DONE);
    printf("%zu\n", heap() - before);
    szg_close_tablebase(&tablebase);
    return failed;
}

/* Adds a constant table of White's king and men against Black's king: 0 is a queen, 1 a rook, 2 a bishop, 3 a knight. */
static void add_constant(szg_tablebase *tablebase, const int *men, int count) {
    static uint8_t held[263][80];
    static const uint8_t begin[] = {0x71, 0xe8, 0x23, 0x5d, 1, 0, 0x66};
    static int n;
    uint8_t *added = held[n++];
    char its_name[8] = "K";
    memcpy(added, begin, sizeof begin);
    for (int i = 0; i < count; i++) its_name[1 + i] = "QRBN"[men[i]], added[7 + i] = (uint8_t)(0x55 - 0x11 * men[i]);
    its_name[1 + count] = 'v', its_name[2 + count] = 'K', added[7 + count] = 0xee;
    size_t flags = (size_t)(8 + count + count % 2);
    added[flags] = added[flags + 2] = 0x80;
    want("add constant", szg_tablebase_add(tablebase, its_name, strlen(its_name), false, added, 80, &answer), SZG_DONE);
}

/* Adds constant tables of White's king and two to four queens, rooks, bishops and knights against Black's king. */
static void add_others(szg_tablebase *tablebase) {
    int n = 0;
    for (int four = 0; four < 625; four++) {
        int men[] = {four / 125, four / 25 % 5, four / 5 % 5, four % 5}, count = 0;
        /* 4 is no man */
        while (count < 4 && men[count] < 4) count++;
        bool falls = count < 2;
        for (int i = 1; i < 4; i++) falls |= men[i] < men[i - 1];
        if (falls) continue;
        add_constant(tablebase, men, count);
        n++;
    }
    want("others", n, 65);
}

static int again(uint64_t times, bool is_behind) {
    static const uint8_t kinds[] = {SZG_QUEEN, SZG_ROOK, SZG_BISHOP, SZG_KNIGHT};
    szg_man men[3] = {{SZG_KING, SZG_WHITE, 1}, {SZG_QUEEN, SZG_WHITE, 17}, {SZG_KING, SZG_BLACK, 42}};
    szg_tablebase tablebase = SZG_NO_TABLEBASE;
    szg_missing missing;
    int8_t class;
    for (int i = 0; is_behind && i < 4; i++) add_others(&tablebase);
    for (int man = 1; is_behind && man < 4; man++) add_constant(&tablebase, &man, 1);
    want("add", szg_tablebase_add(&tablebase, OF_FILE, &answer), SZG_DONE);
    for (uint64_t i = 0; i < times; i++) {
        if (is_behind) men[1].kind = kinds[i % 4];
        want("class", szg_tablebase_wdl(&tablebase, men, 3, SZG_WHITE, SZG_NO_SQUARE, &class, &missing), SZG_DONE);
    }
    szg_close_tablebase(&tablebase);
    return failed;
}

int main(int count, char **words) {
    if (count != 4) return 2;
    const char *call = words[2];
    if (strcmp(call, "keep") == 0) return keep(words[1]);
    uint64_t times = strtoull(words[3], NULL, 10), sum = 0;
    szg_table other = SZG_NO_TABLE;
    load_sample(words[1], strcmp(call, "get_long") == 0 ? PAIRED : UNPAIRED);
    if (strcmp(call, "again") == 0 || strcmp(call, "behind") == 0) return again(times, strcmp(call, "behind") == 0);
    want("open", szg_open(OF_FILE, &table, &answer), SZG_DONE);
    for (uint64_t i = 0; i < times; i++) {
        uint16_t value = 0;
        szg_spot spot = {0, 0, 0};
        if (strcmp(call, "check") == 0)
            sum += szg_check(OF_FILE, &answer);
        else if (strcmp(call, "open") == 0)
            sum += szg_open(OF_FILE, &other, &answer);
        else if (strcmp(call, "index") == 0)
            sum += szg_index(&table, MEN, 3, SZG_WHITE, &spot);
        else if (strcmp(call, "share") == 0)
            sum += szg_share(&table, &other);
        else
            sum += szg_get(&table, 0, 0, i * 7919 % 31332, &value);
    }
    want("all done", (int64_t)sum, 0);
    szg_close(&table);
    szg_close(&other);
    return failed;
}
