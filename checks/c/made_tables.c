/* Makes and changes tables, as made_tables.h says. */
#include "made_tables.h"
#include <string.h>

static uint64_t random_state;

void random_seed(uint64_t seed) { random_state = seed; }

static uint64_t random_64(void) {
    uint64_t z = random_state += 0x9E3779B97F4A7C15;
    z = (z ^ z >> 30) * 0xBF58476D1CE4E5B9;
    z = (z ^ z >> 27) * 0x94D049BB133111EB;
    return z ^ z >> 31;
}

uint64_t random_below(uint64_t limit) { return random_64() % limit; }
bool random_one_in(uint64_t n) { return random_below(n) == 0; }

#define ONE_OF(...) one_of((const int[]){__VA_ARGS__}, sizeof((const int[]){__VA_ARGS__}) / sizeof(int))

static int one_of(const int *choices, size_t count) { return choices[random_below(count)]; }

/* ---- Names */

static void put_side(char *out, const int *counts) {
    static const char letters[] = "QRBNP";
    *out++ = 'K';
    for (int kind = 0; kind < 5; kind++)
        for (int i = 0; i < counts[kind]; i++) *out++ = letters[kind];
    *out = 0;
}

static void make_name(char *name, reader_material *material) {
    char sides[2][8];
    int counts[2][5] = {{0}}, more = ONE_OF(1, 1, 2, 2, 2, 3, 3, 4), pawns = random_one_in(2);
    bool equal = more % 2 == 0 && random_one_in(4);
    for (int i = 0; i < more; i++) {
        int kind = pawns && random_one_in(2) ? 4 : (int)random_below(4), side = (int)random_below(2);
        if (i > 0 && random_one_in(3)) kind = counts[0][4] + counts[1][4] ? 4 : kind;
        if (!equal)
            counts[side][kind]++;
        else if (i % 2 == 0)
            counts[0][kind]++, counts[1][kind]++;
    }
    put_side(sides[0], counts[0]);
    put_side(sides[1], counts[1]);
    for (int first = 0; first < 2; first++) {
        size_t length = strlen(sides[first]);
        memcpy(name, sides[first], length);
        name[length] = 'v';
        strcpy(name + length + 1, sides[1 - first]);
        if (reader_parse(name, strlen(name), material)) return;
    }
}

/* ---- Bytes */

static void put(made_table *made, const void *bytes, size_t count) {
    if (count > MADE_MOST - made->length) count = MADE_MOST - made->length;
    memcpy(made->bytes + made->length, bytes, count);
    made->length += count;
}

static void put_number(made_table *made, uint64_t number, int count) {
    uint8_t bytes[8];
    for (int i = 0; i < count; i++) bytes[i] = (uint8_t)(number >> 8 * i);
    put(made, bytes, (size_t)count);
}

static void put_random(made_table *made, size_t count) {
    while (count--) put_number(made, random_below(256), 1);
}

static void put_padding(made_table *made, size_t multiple) {
    bool random = random_one_in(2);
    while (made->length % multiple) put_number(made, random ? random_below(256) : 0, 1);
}

/* ---- Dictionary and code */

enum { SYMBOLS_MADE = 6000, BLOCKS_MADE = 4000, PACKED_MOST = 100000, ENTRIES_MOST = 4000 };

typedef struct {
    uint8_t flags;
    bool constant;
    uint8_t second_byte;
    int block_bits, span_bits, extra, max, min, symbols;
    uint32_t blocks;
    uint64_t size, base[34], lowest[34];
    uint16_t left[SYMBOLS_MADE], right[SYMBOLS_MADE], values[SYMBOLS_MADE];
    uint8_t word_length[SYMBOLS_MADE]; /* 0: the symbol has no word */
    uint32_t lengths[BLOCKS_MADE + 256];
    uint64_t start[BLOCKS_MADE + 257];
    uint32_t sparse_block[ENTRIES_MOST];
    uint16_t sparse_offset[ENTRIES_MOST];
    uint8_t packed[PACKED_MOST];
    size_t packed_length;
} making;

static void swap_symbols(making *sub, int a, int b) {
    uint16_t left = sub->left[a], right = sub->right[a], values = sub->values[a];
    sub->left[a] = sub->left[b], sub->right[a] = sub->right[b], sub->values[a] = sub->values[b];
    sub->left[b] = left, sub->right[b] = right, sub->values[b] = values;
    for (int s = 0; s < sub->symbols; s++) {
        if (sub->right[s] == 4095) continue;
        sub->left[s] = (uint16_t)(sub->left[s] == a ? b : sub->left[s] == b ? a : sub->left[s]);
        sub->right[s] = (uint16_t)(sub->right[s] == a ? b : sub->right[s] == b ? a : sub->right[s]);
    }
}

static void add_symbol(making *sub, int left, int right, int values) {
    int s = sub->symbols++;
    sub->left[s] = (uint16_t)left, sub->right[s] = (uint16_t)right, sub->values[s] = (uint16_t)values;
}

/* Leaves, then pairs of earlier symbols, in a random order; with `deep` pairs soon have 256 values. */
static void make_dictionary(making *sub, bool dtz, bool deep) {
    int leaves = ONE_OF(1, 2, 3, 5, 40), pairs = deep ? ONE_OF(8, 12, 40, 300) : ONE_OF(0, 1, 5, 30);
    sub->symbols = 0;
    for (int i = 0; i < leaves; i++) add_symbol(sub, (int)random_below(dtz || random_one_in(40) ? 4096 : 5), 4095, 1);
    for (int i = 0; i < pairs; i++) {
        int last = sub->symbols - 1, near = last < 12 ? last + 1 : 12;
        bool twice = deep && i < 8;
        int left = twice ? last : last - (int)random_below((uint64_t)near), right = twice ? last : last - (int)random_below((uint64_t)near);
        if (sub->values[left] + sub->values[right] <= VALUES_MOST) add_symbol(sub, left, right, sub->values[left] + sub->values[right]);
    }
    for (int i = sub->symbols < 400 ? (int)random_below(40) : 0; i > 0; i--)
        swap_symbols(sub, (int)random_below((uint64_t)sub->symbols), (int)random_below((uint64_t)sub->symbols));
    if (random_one_in(100))
        for (int more = 4200; more > 0; more--) add_symbol(sub, (int)random_below(4096), 4095, 1);
}

/* Splits the leaves of a tree of words until there are `wanted`; counts[l] of them have the length l. */
static void make_lengths(int wanted, int *counts) {
    int longest = ONE_OF(4, 8, 12, 20, 32), made = 1;
    bool comb = random_one_in(3);
    counts[0] = 1;
    while (made < wanted || counts[0]) {
        int length = comb && made < 32 ? made - 1 : (int)random_below((uint64_t)longest);
        if (length >= longest) length = (int)random_below((uint64_t)longest);
        while (!counts[length] && length > 0) length--;
        while (!counts[length] && length < 31) length++;
        counts[length]--, counts[length + 1] += 2, made++;
    }
}

static void make_code(making *sub) {
    int counts[34] = {0}, unused = (int)random_below(3), beyond = random_one_in(3) ? (int)random_below(3) : 0;
    if (unused >= sub->symbols) unused = 0;
    int wanted = sub->symbols - unused - (random_one_in(3) ? 1 : 0) + beyond;
    make_lengths(wanted < 2 ? 2 : wanted, counts);
    for (sub->min = 1; !counts[sub->min]; sub->min++) continue;
    for (sub->max = 32; !counts[sub->max]; sub->max--) continue;
    memset(sub->word_length, 0, sizeof sub->word_length);
    uint64_t symbol = (uint64_t)unused;
    sub->base[sub->max + 1] = 0, sub->lowest[sub->max + 1] = symbol;
    for (int l = sub->max; l >= sub->min; l--) {
        sub->base[l] = l == sub->max ? 0 : (sub->base[l + 1] + (uint64_t)counts[l + 1]) / 2;
        sub->lowest[l] = symbol;
        for (int i = 0; i < counts[l]; i++, symbol++)
            if (symbol < (uint64_t)sub->symbols) sub->word_length[symbol] = (uint8_t)l;
    }
}

/* ---- Blocks */

/* Picks the symbols whose words are written. Returns how many, 0 if their blocks would be too large. */
static int pick_symbols(const making *sub, int *picked) {
    int count = 0, width = 8 << sub->block_bits, wanted = ONE_OF(1, 2, 4, 100, 6000);
    uint64_t bits = 0, values = 0;
    int least = sub->size > 40000 ? ONE_OF(32, 128, 256) : ONE_OF(1, 1, 2, 16, 64);
    int first = (int)random_below((uint64_t)sub->symbols);
    for (int i = 0; i < sub->symbols && count < wanted; i++) {
        int s = (first + i) % sub->symbols;
        if (!sub->word_length[s] || sub->word_length[s] > width || sub->values[s] < least) continue;
        bits += sub->word_length[s], values += sub->values[s];
        picked[count++] = s;
    }
    if (!count || sub->size * bits / values / 8 > PACKED_MOST / 4) return 0;
    return sub->size * bits / values / (uint64_t)width > BLOCKS_MADE / 2 ? 0 : count;
}

static void write_word(making *sub, uint64_t bit, int s) {
    int length = sub->word_length[s];
    uint64_t number = sub->base[length] + (uint64_t)s - sub->lowest[length];
    for (int i = 0; i < length; i++, bit++)
        if (number >> (length - 1 - i) & 1) sub->packed[bit / 8] |= (uint8_t)(128 >> bit % 8);
}

/* Fills one block; returns its number of values, 0 where it doesn't fit. */
static uint32_t fill_block(making *sub, const int *picked, int count, uint64_t left) {
    size_t length = (size_t)1 << sub->block_bits;
    if (sub->packed_length + length > PACKED_MOST || sub->blocks >= BLOCKS_MADE) return 0;
    uint8_t *block = sub->packed + sub->packed_length;
    uint64_t used = 0;
    uint32_t values = 0;
    memset(block, 0, length);
    for (;;) {
        int s = picked[random_below((uint64_t)count)];
        if (used + sub->word_length[s] > 8 * length || values + sub->values[s] > 65536 || values >= left) break;
        if (values && random_one_in(400)) break;
        write_word(sub, 8 * sub->packed_length + used, s);
        used += sub->word_length[s], values += sub->values[s];
    }
    for (; used % 8 == 0 && used < 8 * length && random_one_in(2); used += 8) block[used / 8] = (uint8_t)random_below(256);
    sub->packed_length += length;
    return values > 4 && random_one_in(8) ? values - (uint32_t)random_below(4) : values;
}

static bool make_blocks(making *sub) {
    int picked[SYMBOLS_MADE], count;
    uint64_t total = 0;
    sub->block_bits = sub->size > 40000 ? ONE_OF(5, 6, 8, 10) : ONE_OF(0, 1, 3, 5, 5, 6, 6, 7, 8, 10, 12);
    sub->blocks = 0, sub->packed_length = 0;
    count = pick_symbols(sub, picked);
    if (!count) return false;
    while (total < sub->size) {
        uint32_t values = fill_block(sub, picked, count, sub->size - total);
        if (!values) return false;
        if (total + values >= sub->size && random_one_in(3)) values += (uint32_t)random_below(65537 - values);
        sub->lengths[sub->blocks++] = values;
        total += values;
    }
    for (int more = random_one_in(4) ? 1 + (int)random_below(2) : 0; more > 0; more--)
        if (fill_block(sub, picked, count, random_below(1000))) sub->lengths[sub->blocks++] = 1 + (uint32_t)random_below(65536);
    return true;
}

/* Extra lengths up to the last entry's middle, and entries of blocks at most three before it. */
static bool make_index(making *sub) {
    sub->span_bits = ONE_OF(1, 3, 6, 8, 10, 12, 12, 14, 16, 20, 31);
    while ((sub->size - 1) >> sub->span_bits >= ENTRIES_MOST / 4) sub->span_bits++;
    uint64_t span = (uint64_t)1 << sub->span_bits, entries = ((sub->size - 1) >> sub->span_bits) + 1, last = (entries - 1) * span + span / 2;
    uint32_t count = 0;
    int wanted = random_one_in(3) ? (int)random_below(4) : 0;
    sub->start[0] = 0, sub->extra = 0;
    for (; count < sub->blocks; count++) sub->start[count + 1] = sub->start[count] + sub->lengths[count];
    while (sub->extra < wanted || sub->start[count] + 65535 < last) {
        if (sub->extra == 255) return false;
        sub->lengths[count] = sub->extra < wanted ? 1 + (uint32_t)random_below(65536) : 65536;
        sub->start[count + 1] = sub->start[count] + sub->lengths[count];
        sub->extra++, count++;
    }
    uint32_t block = 0;
    for (uint64_t j = 0; j < entries; j++) {
        uint64_t middle = j * span + span / 2;
        while (block < count && sub->start[block + 1] <= middle) block++;
        uint32_t chosen = block;
        for (int back = random_one_in(5) ? (int)random_below(4) : 0; back > 0 && chosen > 0 && middle - sub->start[chosen - 1] < 65536; back--) chosen--;
        sub->sparse_block[j] = chosen, sub->sparse_offset[j] = (uint16_t)(middle - sub->start[chosen]);
    }
    return true;
}

/* ---- The table */

static void make_subtable(making *sub, bool dtz, uint64_t size, uint64_t *budget) {
    sub->size = size;
    sub->flags = (uint8_t)(dtz ? random_below(random_one_in(3) ? 128 : 32) : random_one_in(3) ? random_below(128) : 0);
    sub->second_byte = (uint8_t)ONE_OF(0, 1, 2, 3, 4, 5, 200);
    sub->constant = size > *budget || random_one_in(3);
    for (int attempt = 0; !sub->constant; attempt++) {
        make_dictionary(sub, dtz, size > 40000 || random_one_in(2));
        make_code(sub);
        if (make_blocks(sub) && make_index(sub)) break;
        sub->constant = attempt == 4;
    }
    if (sub->constant)
        sub->flags |= 128;
    else
        *budget -= size;
}

static void put_head(made_table *made, const making *sub) {
    put_number(made, sub->flags, 1);
    if (sub->constant) {
        put_number(made, sub->second_byte, 1);
        return;
    }
    put_number(made, (uint64_t)sub->block_bits, 1);
    put_number(made, (uint64_t)sub->span_bits, 1);
    put_number(made, (uint64_t)sub->extra, 1);
    put_number(made, sub->blocks, 4);
    put_number(made, (uint64_t)sub->max, 1);
    put_number(made, (uint64_t)sub->min, 1);
    for (int l = sub->min; l <= sub->max; l++) put_number(made, sub->lowest[l], 2);
    put_number(made, (uint64_t)sub->symbols, 2);
    for (int s = 0; s < sub->symbols; s++) put_number(made, sub->left[s] | (uint64_t)sub->right[s] << 12, 3);
    if (sub->symbols % 2) put_random(made, 1);
}

static void put_map(made_table *made, const making *sub) {
    int width = sub->flags & 16 ? 2 : 1;
    if (!(sub->flags & 2)) return;
    if (width == 2) put_padding(made, 2);
    for (int list = 0; list < 4; list++) {
        int count = ONE_OF(0, 1, 2, 5, 60);
        put_number(made, (uint64_t)count, width);
        put_random(made, (size_t)(count * width));
    }
}

/* The lead pawns, the other pawns, and the rest in a random order. */
static void shuffle_men(const reader_material *m, uint8_t *slots) {
    int at = 0;
    for (int turn = 0; turn < 3; turn++) {
        int first = at;
        for (int i = 0; i < m->count; i++) {
            int code = m->codes[i], due = code == m->lead_code ? 0 : code % 8 == 1 ? 1 : 2;
            if (due != turn) continue;
            int place = turn < 2 ? at : first + (int)random_below((uint64_t)(at - first + 1));
            slots[at++] = slots[place];
            slots[place] = m->codes[i];
        }
    }
}

/* A part's bytes, and its sides' sizes. */
static void put_part(made_table *made, const reader_material *m, int part, int sides, uint64_t *sizes) {
    uint8_t bytes[2 + MEN_MOST] = {0};
    int orders = m->has_pawns && m->other_pawns ? 2 : 1;
    for (int side = 0; side < 2; side++) {
        reader_subtable sub;
        uint8_t places[2];
        do {
            shuffle_men(m, sub.slots);
            for (int i = 0; i < orders; i++) places[i] = (uint8_t)random_below(6);
        } while (side < sides && reader_groups(m, part, places, &sub));
        if (side < sides) *sizes++ = sub.size;
        bool unread = side >= sides && random_one_in(2);
        for (int i = 0; i < orders + m->count; i++) {
            uint64_t nibble = unread ? random_below(16) : i < orders ? places[i] : sub.slots[i - orders];
            bytes[i] |= (uint8_t)(nibble << 4 * side);
        }
    }
    put(made, bytes, (size_t)(orders + m->count));
}

static void put_sections(made_table *made, const making *subs, int count) {
    for (int i = 0; i < count; i++) put_head(made, &subs[i]);
    if (made->dtz) {
        for (int i = 0; i < count; i++) put_map(made, &subs[i]);
        put_padding(made, 2);
    }
    made->head = made->length;
    for (int i = 0; i < count; i++)
        for (uint64_t j = 0; !subs[i].constant && j <= (subs[i].size - 1) >> subs[i].span_bits; j++) {
            put_number(made, subs[i].sparse_block[j], 4);
            put_number(made, subs[i].sparse_offset[j], 2);
        }
    for (int i = 0; i < count; i++)
        for (uint32_t j = 0; !subs[i].constant && j < subs[i].blocks + (uint32_t)subs[i].extra; j++) put_number(made, subs[i].lengths[j] - 1, 2);
    for (int i = 0; i < count; i++)
        if (!subs[i].constant) {
            put_padding(made, 64);
            put(made, subs[i].packed, subs[i].packed_length);
        }
    put_padding(made, 64);
    put_random(made, 16);
}

void make_table(made_table *made) {
    static const uint8_t magics[2][4] = {{0x71, 0xE8, 0x23, 0x5D}, {0xD7, 0x66, 0x0C, 0xA5}};
    static making subs[2 * PARTS_MOST];
    reader_material m;
    uint64_t sizes[2 * PARTS_MOST], budget = random_one_in(6) ? 3000000 : 200000;
    make_name(made->name, &m);
    made->dtz = random_one_in(2);
    made->length = 0;
    int parts = m.has_pawns ? 4 : 1, sides = !made->dtz && !m.symmetric ? 2 : 1;
    bool split = made->dtz ? random_one_in(2) : !m.symmetric;
    put(made, magics[made->dtz], 4);
    put_number(made, split | 2u * m.has_pawns | (random_one_in(3) ? random_below(64) << 2 : 0), 1);
    for (int part = 0; part < parts; part++) put_part(made, &m, part, sides, sizes + part * sides);
    put_padding(made, 2);
    for (int i = 0; i < parts * sides; i++) make_subtable(&subs[i], made->dtz, sizes[i], &budget);
    put_sections(made, subs, parts * sides);
}

/* ---- Changes */

/* An offset, mostly in the head, where most checks are. */
static size_t any_offset(const made_table *made) {
    size_t limit = made->head < made->length && !random_one_in(3) ? made->head : made->length;
    return random_below(limit ? limit : 1);
}

static void insert(made_table *made, size_t at, size_t count) {
    if (made->length + count > MADE_MOST) return;
    memmove(made->bytes + at + count, made->bytes + at, made->length - at);
    for (size_t i = 0; i < count; i++) made->bytes[at + i] = (uint8_t)random_below(256);
    made->length += count;
}

static void delete(made_table *made, size_t at, size_t count) {
    if (count > made->length - at) count = made->length - at;
    memmove(made->bytes + at, made->bytes + at + count, made->length - at - count);
    made->length -= count;
}

/* Puts bytes of another table over or in place of those from an offset on. */
static void splice(made_table *made, const made_table *other) {
    size_t at = any_offset(made), from = random_one_in(2) && at < other->length ? at : any_offset(other), count = other->length - from;
    bool is_tail = random_one_in(2);
    if (!is_tail) count = 1 + random_below(count);
    if (count > MADE_MOST - at) count = MADE_MOST - at;
    memcpy(made->bytes + at, other->bytes + from, count);
    if (is_tail || at + count > made->length) made->length = at + count;
}

/* Exchanges two bytes that are at most eight apart. */
static void exchange(made_table *made, size_t at) {
    size_t second = at + 1 + random_below(8);
    if (second >= made->length) return;
    uint8_t kept = made->bytes[at];
    made->bytes[at] = made->bytes[second], made->bytes[second] = kept;
}

static void copy_within(made_table *made, size_t at) {
    size_t from = any_offset(made), count = (size_t)ONE_OF(2, 3, 3, 6);
    if (from + count <= made->length && at + count <= made->length) memmove(made->bytes + at, made->bytes + from, count);
}

static void set_number(made_table *made, size_t at) {
    uint64_t number = (uint64_t)ONE_OF(0, 1, 2, 255, 256, 4095, 65535, 1 << 20, -1);
    for (int i = 0, count = ONE_OF(2, 2, 3, 4); i < count && at + (size_t)i < made->length; i++) made->bytes[at + (size_t)i] = (uint8_t)(number >> 8 * i);
}

static void extend(made_table *made) {
    for (uint64_t more = 1 + random_below(100); more > 0 && made->length < MADE_MOST; more--) made->bytes[made->length++] = (uint8_t)random_below(256);
}

static void change_once(made_table *made, const made_table *other) {
    size_t at = any_offset(made);
    switch (random_below(15)) {
    case 0: case 1: case 2: made->bytes[at] ^= (uint8_t)(1 << random_below(8)); break;
    case 3: case 4: made->bytes[at] = (uint8_t)ONE_OF(0, 1, 2, 31, 33, 127, 128, 254, 255); break;
    case 5: made->bytes[at] = (uint8_t)random_below(256); break;
    case 6: made->bytes[at] += (uint8_t)ONE_OF(1, -1, 16, -16); break;
    case 7: made->length = random_one_in(2) ? at : random_below(made->length); break;
    case 8: insert(made, at, (size_t)ONE_OF(1, 2, 3, 6, 64)); break;
    case 9: delete(made, at, (size_t)ONE_OF(1, 2, 3, 6, 64)); break;
    case 10: splice(made, other); break;
    case 11: exchange(made, at); break;
    case 12: copy_within(made, at); break;
    case 13: set_number(made, at); break;
    default: extend(made); break;
    }
}

void change_table(made_table *made, const made_table *other) {
    for (int left = ONE_OF(1, 1, 1, 1, 2, 2, 3, 5); left > 0 && made->length > 0; left--) change_once(made, other);
}

/* ---- Inputs of libFuzzer */

bool made_of_input(made_table *made, const uint8_t *input, size_t length) {
    reader_material material;
    if (length < NAMED || input[NAMED - 1] > 1 || length - NAMED > MADE_MOST) return false;
    memcpy(made->name, input, NAMED - 1);
    made->name[NAMED - 1] = 0;
    made->dtz = input[NAMED - 1];
    made->length = length - NAMED;
    made->head = made->length < 400 ? made->length : 400;
    memcpy(made->bytes, input + NAMED, made->length);
    return reader_parse(made->name, strlen(made->name), &material);
}

size_t input_of_made(const made_table *made, uint8_t *input, size_t most) {
    size_t length = made->length < most - NAMED ? made->length : most - NAMED;
    memset(input, 0, NAMED);
    memcpy(input, made->name, strlen(made->name));
    input[NAMED - 1] = made->dtz;
    memcpy(input + NAMED, made->bytes, length);
    return NAMED + length;
}
