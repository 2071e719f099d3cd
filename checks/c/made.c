/* Writes a made table to standard output, in the form of libFuzzer's inputs (made_tables.h): made SEED CHANGE
 *
 * CHANGE is 0 for the table as it was made, else which change of it; each follows from SEED and CHANGE alone. */
#include "made_tables.h"
#include <stdio.h>
#include <stdlib.h>

int main(int count, char **words) {
    static made_table made, other;
    static uint8_t input[NAMED + MADE_MOST];
    if (count != 3) return 2;
    uint64_t seed = strtoull(words[1], NULL, 10), change = strtoull(words[2], NULL, 10);
    random_seed(seed + 1);
    make_table(&other);
    random_seed(seed);
    make_table(&made);
    random_seed(seed * 1000003 + change);
    if (change) change_table(&made, &other);
    size_t length = input_of_made(&made, input, sizeof input);
    return fwrite(input, 1, length, stdout) != length;
}
