/* Lines, words and numbers of any input. */
#ifndef TEACH_INPUT_H
#define TEACH_INPUT_H

#include <stddef.h>
#include <stdint.h>
#include <stdio.h>

#define LINE_BYTES 4096
#define MOST_WORDS 8

struct line {
    size_t length; /* of the bytes that are kept */
    int cut;       /* whether the line had more */
    int ended;     /* whether a line feed ended it, and not the end of the file */
    char text[LINE_BYTES + 1];
};

enum reading { READ_LINE, READ_END, READ_FAILED, READ_INTERRUPTED };

/* Lets SIGINT and SIGQUIT, from now on, give up the line that a person types on
   stdin. They are held back while a command is carried out. Call this before
   the first line is read. */
void allow_interrupts(void);

/* Reads a line of any length and any bytes. A read that another signal
   interrupts, or that would block, is made again. */
enum reading read_line(FILE *file, struct line *line);

/* Prints a line with every byte that is not printable ASCII as \xNN, but only
   the beginning of a line that is too long for two rows of a screen. */
void print_line(const struct line *line);

/* Prints a word as print_line prints a line, in less than half a row. */
void print_word(const char *word, size_t length);

/* Prints bytes as print_line prints a line, in about half a row. */
void print_half(const char *bytes, size_t length);

/* Prints the name of a file as print_line prints a line, whole. */
void print_name(const char *name);

/* Prints the name of a file as it can be typed in a command, or else FILE. */
void print_argument(const char *name);

struct word {
    char *text; /* ends with a 0 byte, and may have others */
    size_t length;
};

/* Splits a line at its blanks; returns the number of words, of which it keeps
   at most MOST_WORDS. */
size_t split(struct line *line, struct word words[MOST_WORDS]);

/* Tells whether a word is these letters. */
int is_word(const struct word *word, const char *letters);

/* Tells whether a word is digits alone. */
int is_digits(const struct word *word);

/* Tells whether a word is digits alone and its number has at most 64 bits. */
int is_number(const struct word *word, uint64_t *number);

#endif
