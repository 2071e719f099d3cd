/* Compares the library with the reader of table_reader.h on made and changed tables: cases COUNT SEED FOLDER
 * Prints the counts; a file with a difference is written into FOLDER. The status is 1 if there is any. */
#include "compare.c"
#include <signal.h>
#include <unistd.h>

enum { CHANGED = 60, KEPT = 16, DIFFERENCES_MOST = 20 };

static void stopped(int signal) {
    static const char text[] = "the case that was compared stopped the program\n";
    if (write(1, text, sizeof text - 1) > 0) keep_case();
    _exit(128 + signal);
}

/* Sometimes asks for the other kind or another material than the bytes are of. */
static void compare_made(const made_table *made, const made_table *other) {
    const char *name = random_one_in(200) ? other->name : made->name;
    compare(name, made->dtz != random_one_in(300), made->bytes, made->length);
}

static void run_cases(uint64_t count, uint64_t seed) {
    made_table *kept = calloc(KEPT, sizeof *kept), *changed = malloc(sizeof *changed);
    for (uint64_t tables = 0; counts.cases < count && counts.differences < DIFFERENCES_MOST; tables++) {
        made_table *made = &kept[tables % KEPT];
        random_seed(seed * 1000003 + tables);
        make_table(made);
        const made_table *other = &kept[tables < KEPT ? 0 : random_below(KEPT)];
        compare_made(made, other);
        for (int i = 0; i < CHANGED && counts.cases < count; i++) {
            *changed = *made;
            change_table(changed, other);
            compare_made(changed, other);
        }
    }
    free(kept);
    free(changed);
}

int main(int count, char **words) {
    if (count != 4) return fprintf(stderr, "cases COUNT SEED FOLDER\n"), 2;
    now.folder = words[3], now.seed = strtoull(words[2], NULL, 10);
    for (int i = 0; i < 4; i++) signal(((const int[]){SIGSEGV, SIGBUS, SIGFPE, SIGABRT})[i], stopped);
    run_cases(strtoull(words[1], NULL, 10), now.seed);
    return compare_report();
}
