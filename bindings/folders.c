/* Tables of folders, over the calls of a tablebase: a file is found, mapped and added when a probe first says that its table is
 * missing.
 *
 * All handles that share tables have one `opened` in common. Under its lock a file is mapped once, and its table added to the
 * tablebase there; each handle then shares that tablebase's tables. So a probe takes the lock only if its handle lacks a table.
 * Files are unmapped when the last handle is closed, after all tablebases. */
#define _GNU_SOURCE
#include "szg.h"
#include <dirent.h>
#include <errno.h>
#include <fcntl.h>
#include <limits.h>
#include <pthread.h>
#include <stdio.h>
#include <stdlib.h>
#include <string.h>
#include <sys/mman.h>
#include <sys/stat.h>
#include <unistd.h>

/* A mapped file. The list owns the mappings; the tables read them. */
struct mapping {
    struct mapping *next;
    void *bytes; /* one more than those of the file, since an empty one can't be mapped */
    size_t length;
};

struct opened {
    _Atomic size_t handles;    /* the number of handles */
    _Atomic uint8_t most_bits; /* the greatest span bits of a table */
    pthread_mutex_t lock;      /* for the next two */
    szg_tablebase tablebase;   /* all tables that were added */
    struct mapping *mappings;  /* their files, the newest first */
    char paths[];              /* those of the folders, separated by ':' */
};

/* In a cache line of its own, since each call writes to it: other threads' handles would wait for the line. */
struct szg_folders {
    _Alignas(64) struct opened *opened;
    szg_tablebase tablebase;      /* the tables up to a newest one */
    const struct mapping *newest; /* the file of that one */
};

/* Maps a file. Returns 0 or an errno, ENOENT for what is no regular file: a pipe isn't waited for. */
static int map_file(const char *path, struct mapping *mapping)
{
    struct stat state;
    int why = ENOENT, file = open(path, O_RDONLY | O_CLOEXEC | O_NONBLOCK);
    if (file < 0)
        return errno;
    if (fstat(file, &state) != 0)
        why = errno;
    else if (S_ISREG(state.st_mode)) {
        mapping->length = (size_t)state.st_size;
        mapping->bytes = mmap(NULL, mapping->length + 1, PROT_READ, MAP_SHARED, file, 0);
        why = mapping->bytes == MAP_FAILED ? errno : 0;
    }
    close(file);
    return why;
}

/* Sets `path` to that of a file in the first folder, and *folders to the others or NULL. Returns whether there is room for it. */
static bool next_path(char path[PATH_MAX], const char **folders, const char *file)
{
    const char *folder = *folders;
    size_t length = strcspn(folder, ":");
    *folders = folder[length] == ':' ? folder + length + 1 : NULL;
    return length < PATH_MAX && snprintf(path, PATH_MAX, "%.*s/%s", (int)length, folder, file) < PATH_MAX;
}

/* Maps the file of a table in the first folder that has it. Returns 0 or an errno, ENOENT if none has it. */
static int find_file(const char *folders, const szg_missing *missing, struct mapping *mapping)
{
    char path[PATH_MAX], file[16];
    int why = ENOENT;
    snprintf(file, sizeof file, "%s.%s", missing->name, missing->dtz ? "rtbz" : "rtbw");
    while (why == ENOENT && folders != NULL)
        why = next_path(path, &folders, file) ? map_file(path, mapping) : ENAMETOOLONG;
    return why;
}

/* Adds the table of a file, unless its span bits exceed those that are wanted. */
static uint32_t add_file(struct opened *opened, const szg_missing *missing, const struct mapping *file, szg_answer *answer)
{
    size_t name_length = strlen(missing->name);
    uint8_t most_bits = opened->most_bits, bits = 0;
    if (most_bits < UINT8_MAX) {
        szg_front front = SZG_NO_FRONT;
        uint32_t status = szg_open_front(missing->name, name_length, missing->dtz, file->bytes, file->length, &front, answer);
        szg_front_span(&front, &bits);
        szg_close_front(&front);
        if (status != SZG_DONE)
            return status;
    }
    if (bits > most_bits) {
        *answer = (szg_answer){0, SZG_SPAN_BITS};
        return SZG_REFUSED;
    }
    return szg_tablebase_add(&opened->tablebase, missing->name, name_length, missing->dtz, file->bytes, file->length, answer);
}

/* Finds, maps and adds the file of a table, under the lock. */
static uint32_t add_table(struct opened *opened, szg_missing *missing)
{
    struct mapping file = {.next = opened->mappings};
    int why = find_file(opened->paths, missing, &file);
    if (why != 0)
        return errno = why, SZG_MISSING;
    szg_answer answer = {0, 0};
    struct mapping *mapping = malloc(sizeof *mapping);
    uint32_t status = mapping == NULL ? SZG_MEMORY : add_file(opened, missing, &file, &answer);
    if (status != SZG_DONE) {
        missing->block = answer.reason;
        missing->offset = answer.place;
        munmap(file.bytes, file.length + 1);
        free(mapping);
        return status;
    }
    *mapping = file;
    opened->mappings = mapping;
    return SZG_DONE;
}

/* Gives a handle the table that it lacks: one that another handle has opened, or a new one. */
static uint32_t fetch(szg_folders *folders, szg_missing *missing)
{
    struct opened *opened = folders->opened;
    pthread_mutex_lock(&opened->lock);
    uint32_t status = folders->newest != opened->mappings ? SZG_DONE : add_table(opened, missing);
    if (status == SZG_DONE)
        /* if this is refused, the handle has no tables, and its newest is still not that of all */
        status = szg_share_tablebase(&opened->tablebase, &folders->tablebase);
    if (status == SZG_DONE)
        folders->newest = opened->mappings;
    pthread_mutex_unlock(&opened->lock);
    return status;
}

uint32_t szg_share_folders(szg_folders *folders, szg_folders **second)
{
    szg_folders *handle = aligned_alloc(_Alignof(szg_folders), sizeof *handle);
    if (handle == NULL)
        return SZG_MEMORY;
    *handle = (szg_folders){folders->opened, SZG_NO_TABLEBASE, NULL};
    handle->opened->handles++;
    *second = handle;
    return SZG_DONE;
}

uint32_t szg_open_folders(const char *paths, szg_folders **folders)
{
    size_t size = strlen(paths) + 1;
    struct opened *opened = malloc(sizeof *opened + size);
    if (opened == NULL)
        return SZG_MEMORY;
    *opened = (struct opened){.most_bits = UINT8_MAX, .lock = PTHREAD_MUTEX_INITIALIZER};
    memcpy(opened->paths, paths, size);
    uint32_t status = szg_share_folders(&(szg_folders){.opened = opened}, folders);
    if (status != SZG_DONE)
        free(opened);
    return status;
}

void szg_limit_folders(szg_folders *folders, uint8_t bits)
{
    folders->opened->most_bits = bits;
}

/* A probe, and again with each table that it lacked. */
#define PROBED(probe) do { \
    uint32_t status = (probe); \
    while (status == SZG_MISSING && (status = fetch(folders, missing)) == SZG_DONE) \
        status = (probe); \
    return status; \
} while (0)

uint32_t szg_folders_wdl(szg_folders *folders, const szg_man *men, size_t count, uint8_t mover, uint8_t en_passant,
                         int8_t *class_of_position, szg_missing *missing)
{
    PROBED(szg_tablebase_wdl(&folders->tablebase, men, count, mover, en_passant, class_of_position, missing));
}

uint32_t szg_folders_dtz(szg_folders *folders, const szg_man *men, size_t count, uint8_t mover, uint8_t en_passant,
                         uint32_t counter, szg_distance *distance, szg_missing *missing)
{
    PROBED(szg_tablebase_dtz(&folders->tablebase, men, count, mover, en_passant, counter, distance, missing));
}

uint32_t szg_folders_moves(szg_folders *folders, const szg_man *men, size_t count, uint8_t mover, uint8_t en_passant,
                           uint32_t counter, szg_move *moves, size_t capacity, size_t *move_count, szg_missing *missing)
{
    PROBED(szg_tablebase_moves(&folders->tablebase, men, count, mover, en_passant, counter, moves, capacity, move_count, missing));
}

void szg_close_folders(szg_folders *folders)
{
    if (folders == NULL)
        return;
    struct opened *opened = folders->opened;
    szg_close_tablebase(&folders->tablebase);
    free(folders);
    if (--opened->handles > 0)
        return;
    szg_close_tablebase(&opened->tablebase);
    for (struct mapping *mapping = opened->mappings, *next; mapping != NULL; mapping = next) {
        next = mapping->next;
        munmap(mapping->bytes, mapping->length + 1);
        free(mapping);
    }
    pthread_mutex_destroy(&opened->lock);
    free(opened);
}

/* Whether a file of the last folder before `others` is a table's, by its name, and is in none before. Then *table is what it is. */
static bool is_table(const char *folders, const char *others, const char *file, szg_table_name *table)
{
    char path[PATH_MAX], kind[2];
    int length, end;
    szg_answer answer;
    struct stat state;
    if (sscanf(file, "%7[KQRBNPv]%n.rtb%1[wz]%n", table->name, &length, kind, &end) != 2 || file[end] != '\0' ||
        szg_check(file, (size_t)length, false, (const uint8_t *)"", 0, &answer) == SZG_NAME)
        return false;
    table->dtz = kind[0] == 'z';
    while (folders != others)
        if (next_path(path, &folders, file) && stat(path, &state) == 0 && S_ISREG(state.st_mode))
            return folders == others;
    return false;
}

size_t szg_folders_list(szg_folders *folders, szg_table_name *tables, size_t capacity, uint8_t *most_men)
{
    char path[PATH_MAX];
    szg_table_name table;
    size_t count = 0;
    *most_men = 0;
    for (const char *others = folders->opened->paths; others != NULL;) {
        DIR *files = next_path(path, &others, "") ? opendir(path) : NULL;
        for (struct dirent *file; files != NULL && (file = readdir(files)) != NULL;) {
            if (!is_table(folders->opened->paths, others, file->d_name, &table))
                continue;
            if (count++ < capacity)
                tables[count - 1] = table;
            if (!table.dtz && strlen(table.name) > *most_men + 1u)
                *most_men = (uint8_t)(strlen(table.name) - 1);
        }
        if (files != NULL)
            closedir(files);
    }
    return count;
}
