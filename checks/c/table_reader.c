/* The checks and the values of table_reader.h: docs/FORMAT.md, sections 1 to 7 and 11. */
#include "table_reader.h"
#include <stdlib.h>
#include <string.h>

/* ---- Section 1: names */

static int kind_of_letter(char letter) {
    static const char letters[] = "PNBRQK";
    const char *found = letter ? strchr(letters, letter) : NULL;
    return found ? (int)(found - letters) + 1 : 0;
}

/* Whether a side is K and then men in the order Q R B N P. */
static bool is_side(const char *letters, size_t length) {
    if (length == 0 || letters[0] != 'K') return false;
    for (size_t i = 1; i < length; i++) {
        int kind = kind_of_letter(letters[i]);
        if (kind == 0 || kind == 6 || (i > 1 && kind > kind_of_letter(letters[i - 1]))) return false;
    }
    return true;
}

/* Whether the first side may precede the second: more men, or at equal numbers earlier letters in K Q R B N P. */
static bool is_first(const char *first, size_t first_length, const char *second, size_t second_length) {
    if (first_length != second_length) return first_length > second_length;
    for (size_t i = 0; i < first_length; i++) {
        int a = kind_of_letter(first[i]), b = kind_of_letter(second[i]);
        if (a != b) return a > b;
    }
    return true;
}

static int count_of(const reader_material *m, int code) {
    int found = 0;
    for (int i = 0; i < m->count; i++) found += m->codes[i] == code;
    return found;
}

static void describe(reader_material *m) {
    int white = count_of(m, 1), black = count_of(m, 9);
    m->symmetric = true;
    m->single = false;
    for (int kind = 1; kind <= 6; kind++) {
        int a = count_of(m, kind), b = count_of(m, kind + 8);
        m->symmetric &= a == b;
        m->single |= kind != 6 && (a == 1 || b == 1);
    }
    m->has_pawns = white + black > 0;
    bool second_leads = white == 0 || (black > 0 && black < white);
    m->lead_code = second_leads ? 9 : 1;
    m->lead_pawns = second_leads ? black : white;
    m->other_pawns = second_leads ? white : black;
}

bool reader_parse(const char *name, size_t length, reader_material *m) {
    const char *middle = memchr(name, 'v', length);
    if (!middle) return false;
    size_t first = (size_t)(middle - name), second = length - first - 1;
    if (!is_side(name, first) || !is_side(middle + 1, second) || !is_first(name, first, middle + 1, second)) return false;
    if (first + second < 3 || first + second > MEN_MOST) return false;
    m->count = 0;
    for (size_t i = 0; i < length; i++)
        if (i != first) m->codes[m->count++] = (uint8_t)(kind_of_letter(name[i]) + (i > first ? 8 : 0));
    describe(m);
    return true;
}

/* ---- Section 3: groups, ways, factors and sizes */

uint64_t reader_choose(uint64_t n, int k) {
    if ((uint64_t)k > n) return 0;
    uint64_t found = 1;
    for (int i = 1; i <= k; i++) found = found * (n - (uint64_t)(k - i)) / (uint64_t)i;
    return found;
}

/* The greatest P of each left file, by rank from 2 on: each rank lowers it by 2. */
static const int P_OF_FILE[4] = {47, 35, 23, 11};

static uint64_t lead_pawn_ways(int part, int k) {
    uint64_t sum = 0;
    for (int rank = 0; rank < 6; rank++) sum += reader_choose((uint64_t)(P_OF_FILE[part] - 2 * rank), k - 1);
    return sum;
}

static bool is_rearrangement(const reader_material *m, const uint8_t *slots) {
    int left[16] = {0};
    for (int i = 0; i < m->count; i++) left[m->codes[i]]++;
    for (int i = 0; i < m->count; i++)
        if (left[slots[i] & 15]-- == 0) return false;
    return true;
}

static bool pawns_are_first(const reader_material *m, const uint8_t *slots) {
    for (int i = 0; i < m->lead_pawns + m->other_pawns; i++)
        if (slots[i] != (i < m->lead_pawns ? m->lead_code : 10 - m->lead_code)) return false;
    return true;
}

static void add_group(reader_subtable *sub, int *at, int length, uint64_t ways) {
    sub->groups[sub->group_count++] = (reader_group){*at, length, ways, 0};
    *at += length;
}

static void cut_groups(const reader_material *m, int part, reader_subtable *sub) {
    int at = 0;
    sub->group_count = 0;
    if (m->has_pawns) {
        add_group(sub, &at, m->lead_pawns, lead_pawn_ways(part, m->lead_pawns));
        if (m->other_pawns) add_group(sub, &at, m->other_pawns, reader_choose((uint64_t)(48 - m->lead_pawns), m->other_pawns));
    } else if (m->single)
        add_group(sub, &at, 3, 31332);
    else
        add_group(sub, &at, 2, 462);
    int free_squares = 64 - at;
    while (at < m->count) {
        int run = 1;
        while (at + run < m->count && sub->slots[at + run] == sub->slots[at]) run++;
        add_group(sub, &at, run, reader_choose((uint64_t)free_squares, run));
        free_squares -= run;
    }
}

/* Gives each group its place: the lead group and the other pawns theirs, the rest what is left in slot order. */
static bool order_groups(const reader_material *m, const uint8_t *places, reader_subtable *sub) {
    int group_at[16], fixed = 1 + (m->has_pawns && m->other_pawns > 0);
    memset(group_at, -1, sizeof group_at);
    for (int i = 0; i < fixed; i++) {
        if (places[i] >= sub->group_count || group_at[places[i]] >= 0) return false;
        group_at[places[i]] = i;
    }
    for (int group = fixed, place = 0; group < sub->group_count; place++)
        if (group_at[place] < 0) group_at[place] = group++;
    sub->size = 1;
    for (int place = 0; place < sub->group_count; place++) {
        sub->groups[group_at[place]].factor = sub->size;
        sub->size *= sub->groups[group_at[place]].ways;
    }
    return true;
}

uint32_t reader_groups(const reader_material *m, int part, const uint8_t *places, reader_subtable *sub) {
    if (!is_rearrangement(m, sub->slots)) return SZG_PIECES;
    if (m->has_pawns && !pawns_are_first(m, sub->slots)) return SZG_PAWNS_FIRST;
    cut_groups(m, part, sub);
    return order_groups(m, places, sub) ? 0 : SZG_ORDER_PLACE;
}

/* ---- Sections 2 and 7: fields and their checks */

static uint32_t two(const uint8_t *b) { return (uint32_t)(b[0] | b[1] << 8); }
static uint32_t four(const uint8_t *b) { return two(b) | two(b + 2) << 16; }

static bool refuse(reader_table *t, uint32_t reason, size_t offset) {
    t->reason = reason;
    t->at = offset;
    return false;
}

/* Takes a field; without its bytes the table is Truncated at the input's end. */
static bool take(reader_table *t, uint64_t count, const uint8_t **field) {
    if (count > t->length - t->at) return refuse(t, SZG_TRUNCATED, t->length);
    if (field) *field = t->bytes + t->at;
    t->at += count;
    return true;
}

static bool align(reader_table *t, size_t multiple) { return take(t, (multiple - t->at % multiple) % multiple, NULL); }

static bool read_beginning(reader_table *t) {
    static const uint8_t magics[2][4] = {{0x71, 0xE8, 0x23, 0x5D}, {0xD7, 0x66, 0x0C, 0xA5}};
    const reader_material *m = &t->material;
    const uint8_t *field;
    if (!take(t, 4, &field)) return false;
    if (memcmp(field, magics[t->dtz], 4)) return refuse(t, SZG_MAGIC, 0);
    if (!take(t, 1, &field)) return false;
    if (!t->dtz && (*field & 1) == m->symmetric) return refuse(t, SZG_SPLIT_BIT, 4);
    if ((*field >> 1 & 1) != m->has_pawns) return refuse(t, SZG_PAWN_BIT, 4);
    return true;
}

static bool read_part(reader_table *t, int part) {
    const reader_material *m = &t->material;
    size_t offset = t->at;
    const uint8_t *field;
    if (!take(t, (uint64_t)(t->orders + m->count), &field)) return false;
    for (int side = 0; side < t->side_count; side++) {
        reader_subtable *sub = &t->subtables[t->subtable_count++];
        uint8_t places[2];
        sub->part = part;
        sub->side = side;
        for (int i = 0; i < t->orders; i++) places[i] = field[i] >> 4 * side & 15;
        for (int i = 0; i < m->count; i++) sub->slots[i] = field[t->orders + i] >> 4 * side & 15;
        uint32_t reason = reader_groups(m, part, places, sub);
        if (reason) return refuse(t, reason, reason == SZG_ORDER_PLACE ? offset : offset + (size_t)t->orders);
    }
    return true;
}

static uint64_t lowest_of(const reader_subtable *sub, int length) { return two(sub->lowest + 2 * (length - sub->min)); }

/* Section 5: the checks of the lowest symbols, which begin at `offset`, and the bases. */
static bool check_code(reader_table *t, reader_subtable *sub, size_t offset) {
    for (int l = sub->min + 1; l <= sub->max; l++)
        if (lowest_of(sub, l) > lowest_of(sub, l - 1)) return refuse(t, SZG_LOWEST_ORDER, offset + 2 * (size_t)(l - sub->min));
    sub->base[sub->max] = 0;
    for (int l = sub->max - 1; l >= sub->min; l--) {
        sub->base[l] = (sub->base[l + 1] + lowest_of(sub, l) - lowest_of(sub, l + 1)) / 2;
        if (2 * sub->base[l] < sub->base[l + 1]) return refuse(t, SZG_TOO_FULL, offset + 2 * (size_t)(l - sub->min));
    }
    return sub->base[sub->min] < (uint64_t)1 << sub->min || refuse(t, SZG_TOO_FULL, offset);
}

/* Section 4: an entry's two numbers. */
static uint32_t left_of(const reader_subtable *sub, uint32_t s) { return sub->entries[3 * s] + 256u * (sub->entries[3 * s + 1] & 15); }
static uint32_t right_of(const reader_subtable *sub, uint32_t s) { return 16u * sub->entries[3 * s + 2] + (sub->entries[3 * s + 1] >> 4); }

enum { UNKNOWN = 0, TOO_LONG = VALUES_MOST + 1, OPEN, ENDLESS };

/* The number of values of a symbol: at most 256, TOO_LONG or ENDLESS. A symbol met below itself is ENDLESS. */
static uint16_t expand(reader_subtable *sub, uint32_t s) {
    uint16_t *found = &sub->expanded[s];
    if (*found == OPEN) return ENDLESS;
    if (*found != UNKNOWN) return *found;
    *found = OPEN;
    if (right_of(sub, s) == 4095) return *found = 1;
    uint32_t left = expand(sub, left_of(sub, s)), right = left == ENDLESS ? ENDLESS : expand(sub, right_of(sub, s));
    if (right == ENDLESS) return *found = ENDLESS;
    return *found = (uint16_t)(left + right > VALUES_MOST ? TOO_LONG : left + right);
}

/* Finds the least symbol with this number of values. */
static bool has_symbol(const reader_subtable *sub, uint16_t count, uint32_t *s) {
    for (*s = 0; *s < sub->symbols; ++*s)
        if (sub->expanded[*s] == count) return true;
    return false;
}

static bool check_dictionary(reader_table *t, reader_subtable *sub, size_t offset) {
    uint32_t s;
    for (s = 0; s < sub->symbols; s++)
        if (right_of(sub, s) != 4095 && (left_of(sub, s) >= sub->symbols || right_of(sub, s) >= sub->symbols))
            return refuse(t, SZG_CHILD, offset + 3 * s);
    sub->expanded = calloc(sub->symbols + 1, sizeof *sub->expanded);
    for (s = 0; s < sub->symbols; s++) expand(sub, s);
    if (has_symbol(sub, ENDLESS, &s)) return refuse(t, SZG_CYCLE, offset + 3 * s);
    if (has_symbol(sub, TOO_LONG, &s)) return refuse(t, SZG_LONG_SYMBOL, offset + 3 * s);
    return true;
}

static bool read_shape(reader_table *t, reader_subtable *sub) {
    const uint8_t *field;
    size_t offset = t->at;
    if (!take(t, 1, &field)) return false;
    sub->block_bits = *field;
    if (sub->block_bits > 18) return refuse(t, SZG_BLOCK_BITS, offset);
    if (!take(t, 1, &field)) return false;
    sub->span_bits = *field;
    if (sub->span_bits < 1 || sub->span_bits > 31) return refuse(t, SZG_SPAN_BITS, offset + 1);
    if (!take(t, 7, &field)) return false;
    sub->extra = field[0];
    sub->blocks = four(field + 1);
    sub->max = field[5];
    sub->min = field[6];
    if (sub->min < 1 || sub->min > sub->max || sub->max > 32) return refuse(t, SZG_CODE_LENGTHS, offset + 7);
    return true;
}

static bool read_head(reader_table *t, reader_subtable *sub) {
    const uint8_t *field;
    if (!take(t, 1, &field)) return false;
    sub->flags = *field;
    sub->constant = *field & 128;
    if (sub->constant) {
        if (!take(t, 1, &field)) return false;
        sub->value = t->dtz ? 0 : *field;
        return true;
    }
    if (!read_shape(t, sub)) return false;
    size_t offset = t->at;
    if (!take(t, 2 * (uint64_t)(sub->max - sub->min + 1), &sub->lowest) || !check_code(t, sub, offset)) return false;
    if (!take(t, 2, &field)) return false;
    sub->symbols = two(field);
    offset = t->at;
    if (!take(t, 3 * (uint64_t)sub->symbols, &sub->entries) || !check_dictionary(t, sub, offset)) return false;
    return take(t, sub->symbols % 2, NULL);
}

static bool read_map(reader_table *t, reader_map *map, uint8_t flags) {
    const uint8_t *field;
    map->is_there = flags & 2;
    map->wide = flags & 16;
    if (!map->is_there) return true;
    uint64_t width = map->wide ? 2 : 1;
    if (map->wide && !align(t, 2)) return false;
    for (int list = 0; list < 4; list++) {
        if (!take(t, width, &field)) return false;
        map->count[list] = map->wide ? two(field) : *field;
        map->offset[list] = t->at;
        if (!take(t, width * map->count[list], NULL)) return false;
    }
    return true;
}

static bool read_maps(reader_table *t) {
    for (int part = 0; part < t->part_count; part++)
        if (!read_map(t, &t->maps[part], t->subtables[part].flags)) return false;
    return align(t, 2);
}

static uint64_t entries_of(const reader_subtable *sub) { return ((sub->size - 1) >> sub->span_bits) + 1; }

/* Section 6: the sums of the lengths, which begin at `offset`, and the sparse index. */
static bool check_lengths(reader_table *t, reader_subtable *sub, size_t offset) {
    uint64_t count = (uint64_t)sub->blocks + (uint64_t)sub->extra;
    sub->start = malloc((count + 1) * sizeof *sub->start);
    sub->start[0] = 0;
    for (uint64_t i = 0; i < count; i++) sub->start[i + 1] = sub->start[i] + two(sub->lengths + 2 * i) + 1;
    if (sub->start[sub->blocks] < sub->size) return refuse(t, SZG_SHORT_TOTAL, offset);
    for (uint64_t j = 0; j < entries_of(sub); j++) {
        const uint8_t *entry = sub->sparse + 6 * j;
        uint64_t middle = (j << sub->span_bits) + ((uint64_t)1 << sub->span_bits) / 2;
        if (four(entry) > count || sub->start[four(entry)] + two(entry + 4) != middle)
            return refuse(t, SZG_SPARSE_ENTRY, (size_t)(entry - t->bytes));
    }
    return true;
}

static uint64_t needed_of(const reader_subtable *sub, uint32_t block) {
    if (sub->start[block] >= sub->size) return 0;
    uint64_t held = sub->start[block + 1] - sub->start[block], left = sub->size - sub->start[block];
    return held < left ? held : left;
}

/* Section 5: the word that begins the bits at *at: its symbol, with *at moved past it, or -1. */
static int32_t next_symbol(const reader_subtable *sub, const uint8_t *block, uint64_t *at) {
    uint64_t bits = (uint64_t)8 << sub->block_bits, v = 0;
    for (int length = 1; length <= sub->max && *at + (uint64_t)length <= bits; length++) {
        uint64_t bit = *at + (uint64_t)length - 1;
        v = 2 * v + (block[bit / 8] >> (7 - bit % 8) & 1);
        if (length < sub->min || v < sub->base[length]) continue;
        uint64_t symbol = lowest_of(sub, length) + v - sub->base[length];
        if (symbol >= sub->symbols) return -1;
        *at += (uint64_t)length;
        return (int32_t)symbol;
    }
    return -1;
}

/* Value number `within` of a symbol's expansion. */
static uint16_t value_of_symbol(const reader_subtable *sub, uint32_t s, uint64_t within) {
    while (right_of(sub, s) != 4095) {
        uint32_t left = left_of(sub, s);
        if (within < sub->expanded[left])
            s = left;
        else {
            within -= sub->expanded[left];
            s = right_of(sub, s);
        }
    }
    return (uint16_t)left_of(sub, s);
}

/* Value number `within` of a block. Returns false if the words spell fewer values. */
static bool decode(const reader_subtable *sub, const uint8_t *block, uint64_t within, uint16_t *value) {
    uint64_t at = 0;
    for (;;) {
        int32_t symbol = next_symbol(sub, block, &at);
        if (symbol < 0) return false;
        if (within < sub->expanded[symbol]) {
            *value = value_of_symbol(sub, (uint32_t)symbol, within);
            return true;
        }
        within -= sub->expanded[symbol];
    }
}

static bool read_blocks(reader_table *t, reader_subtable *sub) {
    if (!align(t, 64)) return false;
    sub->packed = t->bytes + t->at;
    if (t->is_front) return take(t, (uint64_t)sub->blocks << sub->block_bits, NULL);
    for (uint32_t block = 0; block < sub->blocks; block++) {
        const uint8_t *field;
        uint16_t last;
        size_t offset = t->at;
        if (!take(t, (uint64_t)1 << sub->block_bits, &field)) return false;
        uint64_t needed = needed_of(sub, block);
        if (needed && !decode(sub, field, needed - 1, &last)) return refuse(t, SZG_WORD, offset);
    }
    return true;
}

static bool read_heads(reader_table *t) {
    for (int part = 0; part < t->part_count; part++)
        if (!read_part(t, part)) return false;
    if (!align(t, 2)) return false;
    for (int i = 0; i < t->subtable_count; i++)
        if (!read_head(t, &t->subtables[i])) return false;
    if (t->dtz && !read_maps(t)) return false;
    t->head_end = t->at;
    return true;
}

static bool read_rest(reader_table *t) {
    for (int i = 0; i < t->subtable_count; i++) {
        reader_subtable *sub = &t->subtables[i];
        if (!sub->constant && !take(t, 6 * entries_of(sub), &sub->sparse)) return false;
    }
    for (int i = 0; i < t->subtable_count; i++) {
        reader_subtable *sub = &t->subtables[i];
        size_t offset = t->at;
        if (sub->constant) continue;
        if (!take(t, 2 * ((uint64_t)sub->blocks + (uint64_t)sub->extra), &sub->lengths)) return false;
        if (!check_lengths(t, sub, offset)) return false;
    }
    for (int i = 0; i < t->subtable_count; i++)
        if (!t->subtables[i].constant && !read_blocks(t, &t->subtables[i])) return false;
    return align(t, 64) && take(t, 16, NULL);
}

void reader_read(reader_table *t, const reader_material *material, bool dtz, const uint8_t *bytes, size_t length, bool is_front) {
    *t = (reader_table){.material = *material, .dtz = dtz, .bytes = bytes, .length = length, .is_front = is_front};
    t->part_count = material->has_pawns ? 4 : 1;
    t->side_count = !dtz && !material->symmetric ? 2 : 1;
    t->orders = material->has_pawns && material->other_pawns ? 2 : 1;
    (void)(read_beginning(t) && read_heads(t) && read_rest(t));
}

void reader_free(reader_table *t) {
    for (int i = 0; i < t->subtable_count; i++) {
        free(t->subtables[i].expanded);
        free(t->subtables[i].start);
    }
}

/* ---- Sections 6 and 11: values and numbers */

const reader_subtable *reader_subtable_of(const reader_table *t, int part, int side) {
    return part < t->part_count && side < t->side_count ? &t->subtables[part * t->side_count + side] : NULL;
}

/* The block of a value in a subtable that isn't constant, and the value's number in this block. */
static uint32_t block_of(const reader_subtable *sub, uint64_t index, uint64_t *within) {
    uint32_t block = 0;
    while (sub->start[block + 1] <= index) block++;
    *within = index - sub->start[block];
    return block;
}

bool reader_fetch(const reader_subtable *sub, uint64_t index, uint16_t *value, uint32_t *block) {
    uint64_t within;
    uint16_t last;
    if (sub->constant) {
        *value = sub->value;
        return true;
    }
    *block = block_of(sub, index, &within);
    const uint8_t *bytes = sub->packed + ((uint64_t)*block << sub->block_bits);
    return decode(sub, bytes, needed_of(sub, *block) - 1, &last) && decode(sub, bytes, within, value);
}

/* Appends the values of a symbol, at most `room` of them; returns how many. */
static uint64_t append(const reader_subtable *sub, uint32_t s, uint16_t *values, uint64_t room) {
    if (!room) return 0;
    if (right_of(sub, s) == 4095) {
        *values = (uint16_t)left_of(sub, s);
        return 1;
    }
    uint64_t count = append(sub, left_of(sub, s), values, room);
    return count + append(sub, right_of(sub, s), values + count, room - count);
}

void reader_values(const reader_subtable *sub, uint16_t *values) {
    if (sub->constant)
        for (uint64_t i = 0; i < sub->size; i++) values[i] = sub->value;
    else
        for (uint32_t block = 0; block < sub->blocks; block++) {
            uint64_t at = 0, needed = needed_of(sub, block), done = 0;
            const uint8_t *packed = sub->packed + ((uint64_t)block << sub->block_bits);
            while (done < needed)
                done += append(sub, (uint32_t)next_symbol(sub, packed, &at), values + sub->start[block] + done, needed - done);
        }
}

uint32_t reader_number(const reader_table *t, int part, int class_of_position, uint16_t value, uint32_t *number) {
    const reader_map *map = &t->maps[part];
    uint8_t flags = t->subtables[part].flags;
    uint32_t found = value;
    if (class_of_position == 0) return SZG_DRAW;
    if (map->is_there) {
        int list = class_of_position == 2 ? 0 : class_of_position == -2 ? 1 : class_of_position == 1 ? 2 : 3;
        const uint8_t *items = t->bytes + map->offset[list];
        if (value >= map->count[list]) return SZG_OUTSIDE_MAP;
        found = map->wide ? two(items + 2 * value) : items[value];
    }
    bool in_plies = (class_of_position == 2 && flags & 4) || (class_of_position == -2 && flags & 8);
    *number = in_plies ? found : 2 * found;
    return SZG_DONE;
}
