/*
 * Sets up calls of saszvigom.h one at a time, and runs them.
 */
#ifndef SETUP_H
#define SETUP_H

#include "compare.h"
#include "saszvigom_text.h"

#define COUNT(array) (sizeof(array) / sizeof(array)[0])

/* The call that is set up, what is expected of it, and how many were run. */
extern struct call call;
extern struct outcome expected;
extern size_t cases;

/* Runs the call, and prints a line with its name. */
void run(const char *name);

/* Sets up the opening of a graph without edges and with weights 1, in buffers
   that are longer than needed by an odd number of bytes. What else they hold is
   arbitrary. There is no list of calls, and no sheet. */
void set_graph(size_t n);

/* set_graph, with the edges given as in "01 12". */
void set_edges(size_t n, const char *edges);

/* Makes the buffers just as long as the vertices need. */
void set_lengths_as_needed(void);

/* Stores any word, even one that is not a residue, which saszvigom_store_word
   would refuse. */
void store_any(uint8_t *words, size_t index, uint16_t word);

void set_cell(size_t i, size_t j, uint8_t value);
void set_weight(size_t index, uint16_t weight);
void link_vertices(size_t i, size_t j);
void link_all(void);

/* Sets up a call that reads or draws for n vertices, with buffers that hold
   arbitrary bytes and are longer than needed by an odd number of them. */
void set_buffers(enum entry entry, size_t n);

/* Expects a number, and that nothing is written. */
void expect_nothing_written(uint64_t number);

/* Expects a refusal. */
void expect_refusal(unsigned cause, uint64_t place);

/* Expects a refusal at an adjacency byte. */
void expect_fault(size_t i, size_t j, enum saszvigom_fault fault);

/* A table at fault, for graphs of `least` vertices or more: up to three cells in
   which it differs from that of a graph with all edges, and the cell and the
   fault with which it is refused. A negative row or column counts back from n:
   -1 is the last. */
struct faulty {
    const char *what;
    size_t least, count;
    struct {
        int i, j;
        uint8_t value;
    } cells[3];
    int i, j;
    enum saszvigom_fault fault;
};

/* Every fault in the corners, on and next to the diagonal and below it, several
   faults of one cell, and several cells at fault. */
extern const struct faulty faulty_tables[34];

/* Sets the cells of a table at fault in a graph with all edges, and expects its
   refusal. */
void set_faulty(const struct faulty *table);

/* Sets these cells back. */
void set_back(const struct faulty *table);

/* The first draws of seed 0. */
extern const uint16_t draws_of_0[6];

/* Expects that a graph without edges is read, with weights that begin with
   these. */
void expect_graph(size_t n, const uint16_t *weights, size_t count);

/* Expects one edge more of the graph that is read. */
void expect_edge(size_t i, size_t j);

/* Expects the draws of a seed, one state after another. */
void expect_draws(size_t count, uint32_t seed);

/* Expects the graph that document 01 lists, with the weights of seed 0. */
void expect_listed(void);

/* Runs something on a thread with a small stack, 128 KiB in all, and 144 with
   sanitizers. If that is too small, the program ends by a signal, and the line
   printed first is its last. */
void run_on_small_stack(void *(*work)(void *));

#endif
