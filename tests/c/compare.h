/*
 * Runs a call of saszvigom.h and compares the number returned and every byte of
 * every buffer with what is expected.
 */
#ifndef COMPARE_H
#define COMPARE_H

#include "saszvigom.h"

enum entry { OPEN, PICK, AUTOMATIC, UNDO, ROW, REPLAY, READ, DRAW, READ_DIMACS, ENTRIES };

/* The buffers: the first seven in the order of their numbers from 1 on. SHEET is
   also the text that is read. */
enum {
    ADJACENCY, WEIGHTS, INVERSE, SEQUENCE, WITNESS, WORK, PARTNERS, CALLS, ANSWERS, SHEET, BUFFERS
};

/* The length of the longest buffer: what 96 vertices need, and 64 bytes more. */
#define LONGEST (SASZVIGOM_INVERSE_BYTES(SASZVIGOM_MAX_VERTICES) + 64)

extern const char *const entry_names[ENTRIES];
extern const char *const buffer_names[BUFFERS];

/* A call: the entry, its numbers, and for each buffer its length in bytes and
   the bytes before. An entry uses only some of the numbers and buffers: a is
   also the seed of draws and of a text. Calls and answers are 64-bit numbers as
   they lie in memory. */
struct call {
    enum entry entry;
    uint64_t n, made, a, b;
    size_t length[BUFFERS];
    uint8_t bytes[BUFFERS][LONGEST];
};

/* What is expected of a call: the number, and the bytes after. */
struct outcome {
    uint64_t number;
    uint8_t bytes[BUFFERS][LONGEST];
};

/* Returns a byte that differs from its neighbours, from 0 and from 255. */
uint8_t guard_byte(size_t position);

/* Runs a call twice: with the buffers in one block between guard bytes, those of
   bytes at odd addresses, and with each buffer in a block of its own length.
   Prints the first difference and exits with status 1. */
void check_call(const char *name, const struct call *call, const struct outcome *expected);

#endif
