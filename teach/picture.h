/* A session as a picture in text. */
#ifndef TEACH_PICTURE_H
#define TEACH_PICTURE_H

#include "session.h"

/* Prints a heading and the vertices below n that are marked with 1, in lines of
   at most 78 columns; if n is large, runs of three and more as first-last. */
void print_vertices(const char *heading, const uint8_t *marks, unsigned n);

/* Prints the words of the witness that are not 0. */
void print_witness(const struct session *s);

/* Prints the pairs, the sequence if n is small, the unmatched vertices, and for
   each of these its partners; for a singular graph, the edges and the witness. */
void print_picture(const struct session *s);

#endif
