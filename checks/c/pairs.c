/* The pairs that szg's builder makes of a list of values, by the plain rule: in each round all pairs are counted anew, from left to
 * right without overlap, and the most frequent one of at most 256 values that counts four or more becomes a symbol; of those that
 * count alike the one with the least left symbol, then the least right one.
 *
 * pairs ROUNDS < values     values: uint16, little endian, each at most 4,095
 *
 * It writes the pairs, one a line, each with the number of times that it was replaced, then the symbols that are left on one line. */
#include <stdbool.h>
#include <stdint.h>
#include <stdio.h>
#include <stdlib.h>

enum { MOST_SYMBOLS = 4095, MOST_VALUES = 256, LEAST_COUNT = 4, MOST = 1 << 22 };

static uint16_t text[MOST], lengths[MOST_SYMBOLS + 1], number[4096];
static uint32_t counts[4096][4096];
static size_t size, symbols;

static void count_pairs(void) {
    bool is_free = true; /* whether two equal neighbours may be a pair: their first isn't the end of one */
    for (size_t i = 0; i + 1 < size; i++) {
        bool is_twin = text[i] == text[i + 1];
        if (!is_twin || is_free) counts[text[i]][text[i + 1]]++;
        is_free = !(is_twin && is_free);
    }
}

/* The pair that is made next, and how often it occurs; 0 if there is none. The counts are cleared. */
static uint32_t pick(uint16_t *left, uint16_t *right) {
    uint32_t best = 0;
    for (size_t i = 0; i + 1 < size; i++) {
        uint16_t a = text[i], b = text[i + 1];
        uint32_t count = counts[a][b];
        if (count < LEAST_COUNT || lengths[a] + lengths[b] > MOST_VALUES || count < best) continue;
        if (count == best && (a > *left || (a == *left && b >= *right))) continue;
        best = count, *left = a, *right = b;
    }
    for (size_t i = 0; i + 1 < size; i++) counts[text[i]][text[i + 1]] = 0;
    return best;
}

static void replace(uint16_t left, uint16_t right) {
    size_t kept = 0;
    for (size_t i = 0; i < size; kept++) {
        bool is_pair = i + 1 < size && text[i] == left && text[i + 1] == right;
        text[kept] = is_pair ? (uint16_t)symbols : text[i];
        i += is_pair ? 2 : 1;
    }
    lengths[symbols++] = (uint16_t)(lengths[left] + lengths[right]);
    size = kept;
}

int main(int count, char **words) {
    size_t rounds = count == 2 ? strtoul(words[1], NULL, 10) : 0;
    size = fread(text, sizeof *text, MOST, stdin);
    for (size_t i = 0; i < size; i++) number[text[i] & 4095] = 1;
    for (size_t value = 0; value < 4096; value++)
        if (number[value]) lengths[symbols] = 1, number[value] = (uint16_t)symbols++;
    for (size_t i = 0; i < size; i++) text[i] = number[text[i] & 4095];
    uint16_t left = 0, right = 0;
    for (uint32_t times; rounds > 0 && symbols < MOST_SYMBOLS; rounds--) {
        count_pairs();
        if ((times = pick(&left, &right)) == 0) break;
        replace(left, right);
        printf("%u %u %u\n", left, right, times);
    }
    for (size_t i = 0; i < size; i++) printf("%u%c", text[i], i + 1 < size ? ' ' : '\n');
    return 0;
}
