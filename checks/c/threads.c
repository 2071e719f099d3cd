/* Threads that ask one table or one opened front in one map at once, each by a handle of its own and without a lock: threads
 * FOLDER. The status is 0 where all is as expected. */
#include "trying.h"
#include <pthread.h>

enum { THREADS = 4, ROUNDS = 12 };

static uint16_t *values;
static uint64_t size;

/* A table or an opened front, and what its thread finds. */
struct handle {
    bool is_front;
    szg_table table;
    szg_front front;
    uint64_t faults;
    pthread_t thread;
};

static uint32_t share(struct handle *from, struct handle *to) {
    to->is_front = from->is_front;
    return from->is_front ? szg_share_front(&from->front, &to->front) : szg_share(&from->table, &to->table);
}

static uint32_t get(struct handle *handle, uint64_t i, uint16_t *value) {
    szg_bad_block bad;
    return handle->is_front ? szg_front_get(&handle->front, bytes, length, 0, 0, i, value, &bad) : szg_get(&handle->table, 0, 0, i, value);
}

static uint32_t size_by(struct handle *handle) {
    return handle->is_front ? szg_front_size(&handle->front, 0, 0, &size) : szg_positions(&handle->table, 0, 0, &size);
}

static void let_go_of(struct handle *handle) {
    szg_close(&handle->table);
    szg_close_front(&handle->front);
}

static void *ask(void *given) {
    struct handle *own = given;
    for (int round = 0; round < ROUNDS; round++)
        for (uint64_t i = 0; i < size; i += 7) {
            uint16_t value = 77;
            struct handle shared = {own->is_front, SZG_NO_TABLE, SZG_NO_FRONT, 0, 0};
            bool is_shared = i % 49 == 0 && share(own, &shared) == SZG_DONE;
            own->faults += i % 49 == 0 && !is_shared;
            if (get(is_shared ? &shared : own, i, &value) != SZG_DONE || value != values[i]) own->faults++;
            let_go_of(&shared);
        }
    let_go_of(own);
    return NULL;
}

static void try_threads(bool is_front) {
    struct handle first = {is_front, SZG_NO_TABLE, SZG_NO_FRONT, 0, 0}, none = first, own[THREADS];
    want("open", is_front ? szg_open_front(OF_FILE, &first.front, &answer)
                          : szg_open(OF_FILE, &first.table, &answer), SZG_DONE);
    for (int i = 0; i < THREADS; i++) own[i] = none;

    /* a handle that holds a table lets it go for the one that it shares, or for none */
    want("share", share(&first, &own[0]), SZG_DONE);
    want("share none", share(&none, &own[0]), SZG_CLOSED);
    want("size of none", size_by(&own[0]), SZG_CLOSED);

    want("size", size_by(&first), SZG_DONE);
    for (int i = 0; i < THREADS; i++) {
        want("share", share(&first, &own[i]), SZG_DONE);
        want("thread", pthread_create(&own[i].thread, NULL, ask, &own[i]), 0);
    }
    let_go_of(&first);
    for (int i = 0; i < THREADS; i++) {
        pthread_join(own[i].thread, NULL);
        want(is_front ? "faults of a thread by a front" : "faults of a thread", (int64_t)own[i].faults, 0);
    }
}

int main(int count, char **words) {
    load_sample(folder_of(count, words), UNPAIRED);
    hold();
    want("size", szg_positions(&table, 0, 0, &size), SZG_DONE);
    values = malloc(size * sizeof *values);
    want("values", szg_all(&table, 0, 0, values, size), SZG_DONE);
    let_go();
    if (!failed) try_threads(false), try_threads(true);
    free(values);
    return ended();
}
