/* A graph with the session on it, and what else the desk knows of both. */
#ifndef TEACH_SESSION_H
#define TEACH_SESSION_H

#include "saszvigom_graph.h"
#include "text.h"

#define MOST SASZVIGOM_MAX_VERTICES

struct session {
    struct saszvigom_graph graph;
    unsigned n, made; /* those of the graph */
    unsigned edges;
    uint32_t seed;                  /* of the weights */
    enum saszvigom_verdict verdict; /* of opening the graph with these weights */
    int logged;                     /* whether the pairs are in a log that was asked for */
};

/* A call as it stands in a list of saszvigom_replay; row is not in such a list. */
enum { CALL_ROW = 4 };
struct call {
    uint64_t kind, a, b;
};

/* Reads a sheet and opens its graph; returns the number of saszvigom_read. */
uint64_t session_read(struct session *s, const uint8_t *sheet, size_t length);

/* Reads a text in the DIMACS edge format with a seed, and opens its graph;
   returns the number of saszvigom_read_dimacs. */
uint64_t session_read_text(struct session *s, const struct text *text, uint32_t seed);

/* Opens the graph again with the weights of a seed. */
void session_redraw(struct session *s, uint32_t seed);

/* The calls of the library: each returns its number. */
uint64_t session_pick(struct session *s, uint64_t a, uint64_t b);
uint64_t session_automatic(struct session *s);
uint64_t session_undo(struct session *s);
uint64_t session_row(const struct session *s, uint64_t a, uint8_t row[MOST]);
uint64_t session_replay(struct session *s, const uint64_t *calls, size_t numbers,
                        uint64_t *answers, size_t room);

/* Tells whether the graph was opened; else it is singular with these weights. */
int opened(const struct session *s);

/* Tells whether two vertices, both below n, are adjacent. */
int adjacent(const struct session *s, unsigned a, unsigned b);

/* Returns the index of a vertex in sequence, or SASZVIGOM_UNUSED if it is
   unmatched. */
unsigned place_of(const struct session *s, unsigned a);

#endif
