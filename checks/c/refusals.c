/* What becomes of calls whose growths of memory are refused, each in turn: refusals FOLDER
 * A call without its memory returns SZG_MEMORY or does without, writes nothing, leaves its handle closed, and keeps none. Linked with
 * malloc, realloc and free wrapped. The status is 0 if all is so. */
#include "trying.h"

enum { SIZE = 31332 };

/* ---- Growths of memory that are refused */

/* How many growths are granted before one is refused, or -1; how many blocks are held. */
static long allowed = -1, held;

void *__real_malloc(size_t size);
void *__real_realloc(void *block, size_t size);
void __real_free(void *block);

static bool refuses(void) { return allowed >= 0 && allowed-- == 0; }

void *__wrap_malloc(size_t size) {
    void *block = refuses() ? NULL : __real_malloc(size);
    held += block != NULL;
    return block;
}

void *__wrap_realloc(void *block, size_t size) {
    void *moved = refuses() ? NULL : __real_realloc(block, size);
    held += moved && !block;
    return moved;
}

void __wrap_free(void *block) {
    held -= block != NULL;
    __real_free(block);
}

static szg_table second = SZG_NO_TABLE;
static szg_front second_front = SZG_NO_FRONT;

/* What a call may write: it stays without memory. */
static struct { szg_answer answer; uint16_t values[SIZE]; uint64_t size; } lent, filled;
static uint8_t original[sizeof bytes];

/* ---- Memory */

static uint64_t size;

static uint32_t check(void) { return szg_check(OF_FILE, &lent.answer); }
static uint32_t find_size(void) { return szg_size(OF_FILE, 0, 0, &lent.size, &lent.answer); }
static uint32_t list(void) { return szg_values(OF_FILE, 0, 0, lent.values, size, &lent.answer); }
static uint32_t list_some(void) { return szg_values_at(OF_FILE, 0, 0, (const uint64_t[]){0, 5}, 2, lent.values, 2, &lent.answer); }
static uint32_t open(void) { return szg_open(OF_FILE, &second, &lent.answer); }
static uint32_t open_front(void) { return szg_open_front(OF_FILE, &second_front, &lent.answer); }
static uint32_t share(void) { return szg_share(&table, &second); }
static uint32_t share_front(void) { return szg_share_front(&front, &second_front); }

static const struct { const char *name; uint32_t (*call)(void); } growing[] = {
    {"check", check}, {"size", find_size}, {"values", list}, {"values_at", list_some}, {"open", open}, {"open_front", open_front},
    {"share", share}, {"share_front", share_front},
};

/* Makes a call with each of its growths refused, until none is. Returns how many there are. */
static long refuse_in_turn(const char *what, uint32_t (*call)(void)) {
    for (long growth = 0; !failed; growth++) {
        long before = held;
        memset(&lent, 0x5a, sizeof lent);
        allowed = growth;
        uint32_t status = call();
        bool is_done = allowed >= 0;
        allowed = -1;
        want(what, status, is_done ? SZG_DONE : SZG_MEMORY);
        if (!is_done) {
            want("what stays without memory", memcmp(&lent, &filled, sizeof lent) || memcmp(bytes, original, sizeof bytes), 0);
            want("handles without memory", second.held || second_front.held, 0);
        }
        szg_close(&second), szg_close_front(&second_front);
        want("blocks kept", held, before);
        if (is_done) return growth;
    }
    return 0;
}

/* Look-ups, lists of a table in memory and texts take no memory. */
static void take_none(void) {
    long before = allowed = 1 << 20;
    look_up_by_each_call(&table, &front, 7);
    want("all", szg_all(&table, 0, 0, lent.values, size), SZG_DONE);
    want("growths of look-ups", before - allowed, 0);
    allowed = -1;
}

static void attempt(void) {
    memcpy(original, bytes, sizeof bytes);
    hold();
    want("size", szg_positions(&table, 0, 0, &size), SZG_DONE);
    take_none();
    printf("%s: growths refused in turn:", file);
    for (size_t i = 0; i < sizeof growing / sizeof *growing; i++) printf(" %s %ld", growing[i].name, refuse_in_turn(growing[i].name, growing[i].call));
    puts("");
    let_go();
    want("blocks kept", held, 0);
}

int main(int count, char **words) {
    memset(&filled, 0x5a, sizeof filled);
    each_sample(folder_of(count, words), attempt);
    return ended();
}
