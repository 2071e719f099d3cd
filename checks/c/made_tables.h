/* Random tables of all shapes, and random changes of their bytes. All of it follows from the state of `random_state`. */
#ifndef MADE_TABLES_H
#define MADE_TABLES_H
#include "table_reader.h"

enum { MADE_MOST = 1 << 18 };

typedef struct {
    char name[16];
    bool dtz;
    size_t length, head; /* head: the offset of the first sparse index */
    uint8_t bytes[MADE_MOST];
} made_table;

void random_seed(uint64_t seed);
/* A number below `limit`, which is at least 1. */
uint64_t random_below(uint64_t limit);
bool random_one_in(uint64_t n);

/* Makes a table of a random material and kind, mostly one that every check accepts. */
void make_table(made_table *made);

/* Changes bytes of `made` once to five times; `other` lends bytes for splices. */
void change_table(made_table *made, const made_table *other);

/* An input of libFuzzer is a name of 15 bytes, padded with zeros, a byte for the kind, and the file. */
enum { NAMED = 16 };

/* The table of an input. Returns false if its first bytes are no material and kind. */
bool made_of_input(made_table *made, const uint8_t *input, size_t length);

/* Writes the input of a table, at most `most` bytes; returns its length. */
size_t input_of_made(const made_table *made, uint8_t *input, size_t most);
#endif
