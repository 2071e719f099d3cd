/* Prints what a table stores for a placement, which isn't the result (results.c prints it) if a capture or pawn move decides:
 * values FILE NAME wdl|dtz w|b MAN.., as values KQvK.rtbw KQvK wdl w Ke8 Qa1 kh1
 * For a WDL table it is the stored class (2, 1, 0, -1, -2), for a DTZ table the number of a win; szg_probe says what they mean.
 * The status is that of the call that refuses, 64 for a fault of words, 66 where the file cannot be read. */
#include "szg.h"
#include <ctype.h>
#include <stdio.h>
#include <stdlib.h>
#include <string.h>

/* A file's bytes; NULL where it cannot be read. */
static uint8_t *read_file(const char *path, size_t *length) {
    FILE *file = fopen(path, "rb");
    if (!file) return NULL;
    uint8_t *bytes = NULL;
    if (fseek(file, 0, SEEK_END) == 0) {
        long end = ftell(file);
        rewind(file);
        bytes = end < 0 ? NULL : malloc((size_t)end + 1);
        *length = bytes ? fread(bytes, 1, (size_t)end, file) : 0;
    }
    fclose(file);
    return bytes;
}

/* The man of a word as Ke1 (White's) or pa7 (Black's); one that szg_probe refuses for other words. */
static szg_man man_of(const char *word) {
    const char *kinds = "PNBRQK", *kind = strlen(word) == 3 ? strchr(kinds, toupper((unsigned char)word[0])) : NULL;
    int file = kind ? word[1] - 'a' : 8, rank = kind ? word[2] - '1' : 8;
    szg_man man = {kind ? (uint8_t)(kind - kinds + SZG_PAWN) : 0, SZG_WHITE, 64};
    if (islower((unsigned char)word[0])) man.color = SZG_BLACK;
    if (0 <= file && file < 8 && 0 <= rank && rank < 8) man.square = (uint8_t)(8 * rank + file);
    return man;
}

static int is_one_of(const char *word, const char *first, const char *second) {
    return !strcmp(word, first) || !strcmp(word, second);
}

int main(int count, char **words) {
    if (count < 6 || count > 12 || !is_one_of(words[3], "wdl", "dtz") || !is_one_of(words[4], "w", "b"))
        return fprintf(stderr, "values FILE NAME wdl|dtz w|b MAN..\n"), 64;
    size_t length = 0;
    uint8_t *bytes = read_file(words[1], &length);
    if (!bytes) return perror(words[1]), 66;
    szg_table table = SZG_NO_TABLE;
    szg_answer answer;
    uint32_t status = szg_open(words[2], strlen(words[2]), !strcmp(words[3], "dtz"), bytes, length, &table, &answer);
    free(bytes);
    if (status == SZG_REFUSED)
        fprintf(stderr, "refused at %llu, reason %u\n", (unsigned long long)answer.place, answer.reason);
    szg_man men[7];
    for (int i = 5; i < count; i++) men[i - 5] = man_of(words[i]);
    uint8_t mover = words[4][0] == 'w' ? SZG_WHITE : SZG_BLACK;
    int64_t outcome;
    if (status == SZG_DONE) status = szg_probe(&table, men, (size_t)count - 5, mover, 2, &outcome);
    if (status == SZG_DONE) printf("%lld\n", (long long)outcome);
    szg_close(&table);
    return (int)status;
}
