/* What a person may have meant by a word that is not a command. */
#ifndef TEACH_HINT_H
#define TEACH_HINT_H

#include "input.h"

/* Returns the command that a word is another word for, or null. */
const char *other_word(const struct word *word);

/* Tells whether a word is for the shell, or for another sheet. */
int outside(const struct word *word);

/* Tells whether a word is a name except for its case and one letter that is
   missing, extra, wrong, or exchanged with the next. */
int nearly(const struct word *word, const char *name);

/* Tells whether a word is a name in capitals, or partly in capitals. */
int in_capitals(const struct word *word, const char *name);

/* Tells whether a word is printable ASCII alone. */
int is_plain(const struct word *word);

/* Returns the letter O, o, I or l of a word that is otherwise digits, or 0. */
char letter_for_digit(const struct word *word);

#endif
