/* Looks values up in one subtable of a table file, checks its blocks and lists its values, each by szg_block and by
 * plain C of the form of de Man's probing code, and prints the ratios of times: lookup TABLE */
#include "bench.h"
#include "../checks/c/table_reader.h"

enum { LOOK_UPS = 1 << 20, ROUNDS = 15, PASSES = 8, LEAF = 0xFFF, MOST_LENGTHS = 32, MOST_VALUES = 256 };

struct numbers {
    uint64_t size;
    uint32_t blocks;
    uint16_t symbols;
    uint8_t block_bits, span_bits, extra, min, max;
};

struct work {
    uint32_t checks, lists;
};

/* exported by the static library szg_bench; its allocator takes no argument */
uint64_t szg_bench_subtable(const struct work *work, const struct numbers *numbers, const uint16_t *lowest,
                            size_t lowest_len, const uint8_t *entries, size_t entries_len, const uint32_t *blocks,
                            size_t blocks_len, const uint16_t *offsets, size_t offsets_len, const uint16_t *lengths,
                            size_t lengths_len, const uint8_t *packed, size_t packed_len, const uint32_t *indexes,
                            size_t indexes_len);

uint64_t szg_bench_opened(const uint8_t *name, size_t name_len, const uint8_t *bytes, size_t bytes_len,
                          const uint32_t *indexes, size_t indexes_len);

/* side 0 of a table, as the probing code keeps it */
struct table {
    struct numbers n;
    size_t spans;
    const uint8_t *index, *packed, *pairs;
    uint16_t offset[MOST_LENGTHS], *lengths;
    uint64_t base[MOST_LENGTHS];
    uint8_t *symbol_len; /* less one */
    uint32_t *entry_blocks;
    uint16_t *entry_offsets;
};

static uint16_t u16(const uint8_t *p) {
    uint16_t v;
    memcpy(&v, p, 2);
    return v;
}

static uint32_t u32(const uint8_t *p) {
    uint32_t v;
    memcpy(&v, p, 4);
    return v;
}

static uint64_t big64(const uint8_t *p) {
    uint64_t v;
    memcpy(&v, p, 8);
    return __builtin_bswap64(v);
}

static uint32_t big32(const uint8_t *p) { return __builtin_bswap32(u32(p)); }

static int left_of(const uint8_t *w) { return (w[1] & 0xf) << 8 | w[0]; }
static int right_of(const uint8_t *w) { return w[2] << 4 | w[1] >> 4; }

/* Takes side 0 of a table that the second reader has read. */
static void take_table(struct table *t, const reader_subtable *sub) {
    t->n = (struct numbers){sub->size, sub->blocks, (uint16_t)sub->symbols, (uint8_t)sub->block_bits, (uint8_t)sub->span_bits,
                            (uint8_t)sub->extra, (uint8_t)sub->min, (uint8_t)sub->max};
    t->index = sub->sparse, t->packed = sub->packed, t->pairs = sub->entries;
    for (int l = sub->min; l <= sub->max; l++) {
        t->offset[l - sub->min] = u16(sub->lowest + 2 * (l - sub->min));
        t->base[l - sub->min] = sub->base[l] << (64 - l);
    }
    t->symbol_len = malloc(sub->symbols);
    for (uint32_t s = 0; s < sub->symbols; s++) t->symbol_len[s] = (uint8_t)(sub->expanded[s] - 1);
    t->spans = (sub->size + (1ull << sub->span_bits) - 1) >> sub->span_bits;
    t->entry_blocks = calloc(t->spans, sizeof *t->entry_blocks);
    t->entry_offsets = calloc(t->spans, sizeof *t->entry_offsets);
    for (size_t j = 0; j < t->spans; j++) {
        t->entry_blocks[j] = u32(t->index + 6 * j);
        t->entry_offsets[j] = u16(t->index + 6 * j + 4);
    }
    size_t count = t->n.blocks + t->n.extra;
    t->lengths = calloc(count, 2);
    for (size_t n = 0; n < count; n++) t->lengths[n] = u16(sub->lengths + 2 * n);
}

/* the look-up of the probing code: a function of its own, which isn't written into the loop that times it */
__attribute__((noinline)) static uint16_t look_up(const struct table *t, uint64_t i) {
    uint64_t span = i >> t->n.span_bits;
    uint32_t block = u32(t->index + 6 * span);
    int64_t rest = (int64_t)(i & ((1ull << t->n.span_bits) - 1)) - (1ll << (t->n.span_bits - 1)) + u16(t->index + 6 * span + 4);
    if (rest < 0)
        while (rest < 0) rest += t->lengths[--block] + 1;
    else
        while (rest > t->lengths[block]) rest -= t->lengths[block++] + 1;
    const uint8_t *p = t->packed + ((size_t)block << t->n.block_bits);
    int min = t->n.min, value = rest, bits = 0, symbol;
    const uint64_t *base = t->base - min;
    const uint16_t *offset = t->offset - min;
    const uint8_t *symbol_len = t->symbol_len;
    uint64_t window = big64(p);
    p += 8;
    for (;;) {
        int l = min;
        while (window < base[l]) l++;
        symbol = offset[l] + (int)((window - base[l]) >> (64 - l));
        if (value < symbol_len[symbol] + 1) break;
        value -= symbol_len[symbol] + 1;
        window <<= l;
        bits += l;
        if (bits >= 32) {
            bits -= 32;
            window |= (uint64_t)big32(p) << bits;
            p += 4;
        }
    }
    while (symbol_len[symbol]) {
        const uint8_t *w = t->pairs + 3 * symbol;
        int left = left_of(w);
        if (value < symbol_len[left] + 1) {
            symbol = left;
        } else {
            value -= symbol_len[left] + 1;
            symbol = right_of(w);
        }
    }
    return left_of(t->pairs + 3 * symbol);
}

/* decodes the words of one block, up to `wanted` values; if a list is passed, their values are stored there */
static bool read_block(const struct table *t, const uint8_t *p, int64_t wanted, uint16_t *list) {
    int min = t->n.min, bits = 0;
    const uint64_t *base = t->base - min;
    const uint16_t *offset = t->offset - min;
    int64_t left = 8ll << t->n.block_bits;
    const uint8_t *end = p + ((size_t)1 << t->n.block_bits);
    uint64_t window = big64(p);
    p += 8;
    while (wanted > 0) {
        int l = min;
        while (window < base[l]) l++;
        int symbol = offset[l] + (int)((window - base[l]) >> (64 - l));
        if (l > left || symbol >= t->n.symbols) return false;
        left -= l;
        if (list) {
            uint16_t waiting[MOST_VALUES];
            int count = 1;
            int64_t room = wanted;
            waiting[0] = symbol;
            while (count > 0 && room > 0) {
                const uint8_t *w = t->pairs + 3 * waiting[--count];
                if (right_of(w) == LEAF) {
                    *list++ = left_of(w);
                    room--;
                } else {
                    waiting[count++] = right_of(w);
                    waiting[count++] = left_of(w);
                }
            }
        }
        wanted -= t->symbol_len[symbol] + 1;
        window <<= l;
        bits += l;
        if (bits >= 32) {
            bits -= 32;
            if (p < end) window |= (uint64_t)big32(p) << bits;
            p += 4;
        }
    }
    return true;
}

/* all blocks, and all values where a list is given */
static bool read_blocks(const struct table *t, uint16_t *list) {
    uint64_t start = 0;
    for (uint32_t n = 0; n < t->n.blocks; n++) {
        int64_t wanted = t->lengths[n] + 1;
        int64_t rest = start < t->n.size ? t->n.size - start : 0;
        if (wanted > rest) wanted = rest;
        if (!read_block(t, t->packed + ((size_t)n << t->n.block_bits), wanted, list ? list + start : NULL))
            return false;
        start += t->lengths[n] + 1;
    }
    return start >= t->n.size;
}

/* ---- What is timed: each way returns a number made of the values that it finds */

static struct table t;
static uint8_t *file;
static size_t length;
static uint32_t indexes[LOOK_UPS];

static uint64_t by_c(size_t count) {
    uint64_t mix = 0;
    for (size_t k = 0; k < count; k++) mix = 31 * mix + look_up(&t, indexes[k]);
    return mix;
}

static uint64_t by_block(struct work work, size_t count) {
    return szg_bench_subtable(&work, &t.n, t.offset, t.n.max - t.n.min + 1, t.pairs, 3 * (size_t)t.n.symbols, t.entry_blocks, t.spans,
                              t.entry_offsets, t.spans, t.lengths, t.n.blocks + t.n.extra, t.packed,
                              (size_t)t.n.blocks << t.n.block_bits, indexes, count);
}

static uint64_t look_up_by_block(size_t count) { return by_block((struct work){0, 0}, count); }
static uint64_t check_by_block(size_t passes) { return by_block((struct work){.checks = (uint32_t)passes}, 0); }
static uint64_t list_by_block(size_t passes) { return by_block((struct work){.lists = (uint32_t)passes}, 0); }

/* in a table that stays in a source over memory */
static uint64_t by_source(size_t count) { return szg_bench_opened((const uint8_t *)"KQRvK", 5, file, length, indexes, count); }

static uint64_t check_by_c(size_t passes) {
    while (passes--)
        if (!read_blocks(&t, NULL)) fail("the checks differ");
    return 0;
}

static uint64_t list_by_c(size_t passes) {
    uint64_t mix = 0;
    while (passes--) {
        uint16_t *list = malloc(2 * t.n.size);
        if (!read_blocks(&t, list)) fail("the checks differ");
        mix = 31 * (31 * mix + list[0]) + list[t.n.size - 1];
        free(list);
    }
    return mix;
}

typedef uint64_t way(size_t count);

/* The least time of one of `count` by each way, in seconds; the time of none, which sets up what the way needs, is left out. */
static void time_ways(way *const *ways, double *best, int number, size_t count) {
    double whole[3] = {0}, begun[3] = {0};
    for (int round = 0; round < ROUNDS; round++) {
        uint64_t due = 0;
        for (int i = 0; i < number; i++) {
            double t0 = now();
            uint64_t mix = ways[i](count);
            double t1 = now();
            ways[i](0);
            double t2 = now();
            if (i == 0) due = mix;
            if (mix != due) fail("the values differ");
            least(&whole[i], t1 - t0);
            least(&begun[i], t2 - t1);
        }
    }
    for (int i = 0; i < number; i++) best[i] = (whole[i] - begun[i]) / (double)count;
}

static void print_rates(const char *what, way *by_c_alone, way *by_szg) {
    double best[2];
    time_ways((way *const[]){by_c_alone, by_szg}, best, 2, PASSES);
    printf("%s C %6.0f million values a second, szg_block %6.0f, ratio of times %.2f\n", what, (double)t.n.size / best[0] / 1e6,
           (double)t.n.size / best[1] / 1e6, best[1] / best[0]);
}

int main(int argc, char **argv) {
    if (argc != 2) return 2;
    file = bytes_of(argv[1], &length);
    static reader_table read;
    reader_material material;
    reader_parse("KQRvK", 5, &material);
    reader_read(&read, &material, false, file, length, false);
    if (read.reason) fail("the table is refused");
    take_table(&t, &read.subtables[0]);
    uint64_t state = 1;
    for (size_t k = 0; k < LOOK_UPS; k++) indexes[k] = draw(&state) % (uint32_t)t.n.size;
    double best[3];
    time_ways((way *const[]){by_c, look_up_by_block, by_source}, best, 3, LOOK_UPS);
    printf("%" PRIu64 " values, %u blocks, %u symbols\n", t.n.size, t.n.blocks, t.n.symbols);
    printf("look-up:             C %6.1f ns, szg_block %6.1f ns, ratio %.2f\n", 1e9 * best[0], 1e9 * best[1], best[1] / best[0]);
    printf("by a source:         Opened  %6.1f ns, ratio %.2f\n", 1e9 * best[2], best[2] / best[0]);
    print_rates("check of all blocks:", check_by_c, check_by_block);
    print_rates("list of all values: ", list_by_c, list_by_block);
    return 0;
}
