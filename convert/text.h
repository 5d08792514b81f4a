/* What the program of this folder and the desk share: a file that is read
   whole, and a seed that is given as an argument. */
#ifndef CONVERT_TEXT_H
#define CONVERT_TEXT_H

#include <stddef.h>
#include <stdint.h>
#include <stdio.h>

struct text {
    uint8_t *bytes; /* never null; free them */
    size_t length;
};

/* Reads a file to its end, whatever its length and in whatever pieces it comes.
   Returns 0, with errno and nothing to free, if it fails. */
int text_read(struct text *text, FILE *file);

/* Tells whether a word is digits alone and its number a seed, which it finds. */
int is_seed(const char *word, uint32_t *seed);

#define SEED_RULE "a seed is digits alone, from 0 to 4294967295"

#endif
