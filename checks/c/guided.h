/* What the programs share that ask the library what libFuzzer chooses. */
#ifndef GUIDED_H
#define GUIDED_H
#include "szg.h"
#include <stdio.h>
#include <stdlib.h>
#include <string.h>

int LLVMFuzzerInitialize(int *count, char ***words);
int LLVMFuzzerTestOneInput(const uint8_t *input, size_t length);

static inline void require(int is_so, const char *what) {
    if (!is_so) { fprintf(stderr, "guided: %s\n", what); abort(); }
}

/* The sample tables: of odd numbers DTZ. */
enum { FILES = 10 };

static inline const char *name_of(int file) {
    static const char *const names[FILES / 2] = {"KBvK", "KNvK", "KPvK", "KQvK", "KRvK"};
    return names[file / 2];
}

static inline void write_path(char *path, size_t size, const char *folder, int file) {
    snprintf(path, size, "%s/%s.rtb%c", folder, name_of(file), file % 2 ? 'z' : 'w');
}
#endif
