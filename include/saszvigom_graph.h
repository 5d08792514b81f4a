/*
 * saszvigom: a graph with room for its session, and the calls of saszvigom.h over
 * it.
 *
 *     static struct saszvigom_graph graph;
 *     saszvigom_graph_init(&graph, 4);
 *     saszvigom_graph_set_edge(&graph, 0, 1);
 *     saszvigom_graph_set_edge(&graph, 2, 3);
 *     saszvigom_graph_draw(&graph, 1);
 *     if (saszvigom_kind_of(saszvigom_graph_open(&graph)) == SASZVIGOM_OPENED) {
 *         number = saszvigom_graph_pick(&graph, 0, 1);
 *         saszvigom_graph_explain(line, sizeof line, number, &graph, SASZVIGOM_FROM_CALL);
 *         while (saszvigom_cause_of(saszvigom_graph_automatic(&graph)) == SASZVIGOM_NO_CAUSE)
 *             continue; (until all are matched)
 *     }
 *
 * Each call passes the struct's buffers with their lengths, keeps n and the
 * pairs made, and returns the number of the entry that it calls, unchanged.
 * saszvigom_graph_explain puts it into words.
 *
 * These mistakes do no harm: a vertex that is not there or is given twice, a
 * weight out of range, more than 96 vertices, a session call before opening or
 * after a graph that is singular or was changed, and null for a list, a sheet or
 * a text. Not guarded: null for the graph, a graph whose bytes were never set, by
 * saszvigom_graph_init or from a copy, and lists that overlap each other or the
 * graph.
 *
 * All functions are in this header; they call libsaszvigom.a and memset and
 * allocate nothing. For C99 or C++11 and later.
 */
#ifndef SASZVIGOM_GRAPH_H
#define SASZVIGOM_GRAPH_H

#include "saszvigom.h"
#include "saszvigom_text.h"

#include <string.h>

#ifdef __cplusplus
extern "C" {
#endif

/* A graph of up to 96 vertices. It is large, about 55 KB: make it static, or
   allocate it if the stack is small. It has no pointers, so you may copy and
   store it, session included; store the version with it, and load it only under
   the same major and minor number. Any bytes that you load do no harm to the
   functions of this header. But confirm the session before you use n, made or
   the sequence yourself, since damaged bytes may be any number:
   saszvigom_graph_replay(&graph, NULL, 0, NULL, 0) is carried out exactly if
   the session is sound. The buffers are as saszvigom.h says, and you may read
   them at any time. Pair k, for k below made, is sequence[2 * k] and sequence[2
   * k + 1], and row i and column j of the inverse is
   saszvigom_word(graph.inverse, i * graph.n + j). */
struct saszvigom_graph {
    /* The number of vertices, and the number of pairs made. */
    uint64_t n, made;
    uint8_t adjacency[SASZVIGOM_ADJACENCY_BYTES(SASZVIGOM_MAX_VERTICES)];
    uint8_t weights[SASZVIGOM_WEIGHTS_BYTES(SASZVIGOM_MAX_VERTICES)];
    uint8_t inverse[SASZVIGOM_INVERSE_BYTES(SASZVIGOM_MAX_VERTICES)];
    uint8_t sequence[SASZVIGOM_SEQUENCE_BYTES(SASZVIGOM_MAX_VERTICES)];
    uint8_t witness[SASZVIGOM_WITNESS_BYTES(SASZVIGOM_MAX_VERTICES)];
    uint8_t work[SASZVIGOM_WORK_BYTES(SASZVIGOM_MAX_VERTICES)];
    /* The vertices that could be matched with the vertex of the last
       saszvigom_graph_row, when that was called. */
    uint8_t row[SASZVIGOM_ROW_BYTES(SASZVIGOM_MAX_VERTICES)];
};

/* Clears the session: no pairs, and an inverse of 0, which is right only for no
   vertices. Only for this header. */
static inline void saszvigom_graph_forget(struct saszvigom_graph *graph)
{
    graph->made = 0;
    memset(graph->inverse, 0, sizeof graph->inverse);
    memset(graph->sequence, SASZVIGOM_UNUSED, sizeof graph->sequence);
    memset(graph->witness, 0, sizeof graph->witness);
    memset(graph->work, 0, sizeof graph->work);
    memset(graph->row, 0, sizeof graph->row);
}

/* Makes a graph of n vertices without edges. Its weights are 0, so that opening
   it, if n is 2 or more, is refused with SASZVIGOM_WEIGHT_OUT_OF_RANGE until
   they are drawn or all set. Returns false if n is above 96: then every call of
   the library except saszvigom_graph_read and saszvigom_graph_read_dimacs is
   refused with SASZVIGOM_SIZE_TOO_LARGE. */
static inline bool saszvigom_graph_init(struct saszvigom_graph *graph, uint64_t n)
{
    memset(graph, 0, sizeof *graph);
    saszvigom_graph_forget(graph);
    graph->n = n;
    return n <= SASZVIGOM_MAX_VERTICES;
}

/* Tells whether i and j are two different vertices of the graph. */
static inline bool saszvigom_graph_two(const struct saszvigom_graph *graph, uint64_t i, uint64_t j)
{
    return graph->n <= SASZVIGOM_MAX_VERTICES && i < graph->n && j < graph->n && i != j;
}

/* Sets both adjacency bytes of two vertices. Only for this header. */
static inline bool saszvigom_graph_mark(struct saszvigom_graph *graph, uint64_t i, uint64_t j,
                                        uint8_t value)
{
    if (!saszvigom_graph_two(graph, i, j))
        return false;
    graph->adjacency[i * graph->n + j] = value;
    graph->adjacency[j * graph->n + i] = value;
    return true;
}

/* Make two vertices adjacent, or not adjacent, in either order; they may
   already be so. Return false and change nothing unless they are two different
   vertices of the graph.

   After these functions and those that change weights, open the graph again. A
   session call before that is refused with SASZVIGOM_SESSION_MALFORMED or
   SASZVIGOM_INVERSE_WRONG if the session does not fit the changed graph. A
   change at a matched vertex, except to the edge of its pair, is not noticed:
   the session goes on as one of the changed graph, and an undo may then be
   refused with SASZVIGOM_REST_SINGULAR. */
static inline bool saszvigom_graph_set_edge(struct saszvigom_graph *graph, uint64_t i, uint64_t j)
{
    return saszvigom_graph_mark(graph, i, j, 1);
}

static inline bool saszvigom_graph_clear_edge(struct saszvigom_graph *graph, uint64_t i, uint64_t j)
{
    return saszvigom_graph_mark(graph, i, j, 0);
}

/* Tells whether two vertices are adjacent; false if there is no such vertex. */
static inline bool saszvigom_graph_adjacent(const struct saszvigom_graph *graph, uint64_t i,
                                            uint64_t j)
{
    return saszvigom_graph_two(graph, i, j) && graph->adjacency[i * graph->n + j] == 1;
}

/* Sets the weight of two vertices, in either order, adjacent or not. Returns
   false and changes nothing unless they are two different vertices of the graph
   and the weight is from 1 to 65520. */
static inline bool saszvigom_graph_set_weight(struct saszvigom_graph *graph, uint64_t i, uint64_t j,
                                              uint64_t weight)
{
    return weight != 0 &&
           saszvigom_store_word(graph->weights, saszvigom_weight_index(graph->n, i, j), weight);
}

/* Returns the weight of two vertices, in either order, or 0 if it is not set
   yet or there is no such vertex. */
static inline unsigned saszvigom_graph_weight(const struct saszvigom_graph *graph, uint64_t i,
                                              uint64_t j)
{
    return saszvigom_word(graph->weights, saszvigom_weight_index(graph->n, i, j));
}

/* Draws all weights from a seed: saszvigom_draws. */
static inline uint64_t saszvigom_graph_draw(struct saszvigom_graph *graph, uint32_t seed)
{
    return saszvigom_draws(graph->n, seed, graph->weights, sizeof graph->weights);
}

/* Clears the session and takes the number of vertices from the number of a
   reader, if that was carried out. Only for this header. */
static inline uint64_t saszvigom_graph_take(struct saszvigom_graph *graph, uint64_t number)
{
    if (saszvigom_kind_of(number) == SASZVIGOM_SHEET) {
        saszvigom_graph_forget(graph);
        graph->n = saszvigom_size_of(number);
    }
    return number;
}

/* Reads the graph from a sheet, with its number of vertices, edges and weights:
   saszvigom_read. There is then no session: open the graph. If the sheet is
   refused, the graph and its session stay as they were. Null is a sheet of no
   bytes. */
static inline uint64_t saszvigom_graph_read(struct saszvigom_graph *graph, const uint8_t *sheet,
                                            size_t sheet_len)
{
    const uint8_t none = 0;
    return saszvigom_graph_take(
        graph, saszvigom_read(sheet != NULL ? sheet : &none, sheet != NULL ? sheet_len : 0,
                              graph->adjacency, sizeof graph->adjacency, graph->weights,
                              sizeof graph->weights));
}

/* Reads the graph from a text in the DIMACS edge format, a string or any bytes,
   and draws its weights from a seed: saszvigom_read_dimacs. The length of a
   string is its strlen. Session, refusal and null are as for
   saszvigom_graph_read. */
static inline uint64_t saszvigom_graph_read_dimacs(struct saszvigom_graph *graph, const void *text,
                                                   size_t text_len, uint32_t seed)
{
    const uint8_t none = 0;
    return saszvigom_graph_take(
        graph, saszvigom_read_dimacs(text != NULL ? (const uint8_t *)text : &none,
                                     text != NULL ? text_len : 0, seed, graph->adjacency,
                                     sizeof graph->adjacency, graph->weights,
                                     sizeof graph->weights));
}

/* Keeps the pairs made of a call that was carried out. Only for this header. */
static inline uint64_t saszvigom_graph_keep(struct saszvigom_graph *graph, uint64_t number)
{
    if (saszvigom_cause_of(number) == SASZVIGOM_NO_CAUSE)
        graph->made = saszvigom_made_of(number);
    return number;
}

/* Finds the inverse or a witness, and begins a session with no pairs:
   saszvigom_open. If it is refused, the session stays as it was; if the graph
   is singular, there is no session. */
static inline uint64_t saszvigom_graph_open(struct saszvigom_graph *graph)
{
    return saszvigom_graph_keep(
        graph, saszvigom_open(graph->n, graph->adjacency, sizeof graph->adjacency, graph->weights,
                              sizeof graph->weights, graph->inverse, sizeof graph->inverse,
                              graph->sequence, sizeof graph->sequence, graph->witness,
                              sizeof graph->witness, graph->work, sizeof graph->work));
}

/* Matches vertices a and b, in either order: saszvigom_pick. */
static inline uint64_t saszvigom_graph_pick(struct saszvigom_graph *graph, uint64_t a, uint64_t b)
{
    return saszvigom_graph_keep(
        graph, saszvigom_pick(graph->n, graph->made, a, b, graph->adjacency,
                              sizeof graph->adjacency, graph->weights, sizeof graph->weights,
                              graph->inverse, sizeof graph->inverse, graph->sequence,
                              sizeof graph->sequence));
}

/* Matches the lowest unmatched vertex: saszvigom_automatic. On a sound session it
   is refused only with SASZVIGOM_NOTHING_LEFT, once all vertices are matched. */
static inline uint64_t saszvigom_graph_automatic(struct saszvigom_graph *graph)
{
    return saszvigom_graph_keep(
        graph, saszvigom_automatic(graph->n, graph->made, graph->adjacency,
                                   sizeof graph->adjacency, graph->weights, sizeof graph->weights,
                                   graph->inverse, sizeof graph->inverse, graph->sequence,
                                   sizeof graph->sequence));
}

/* Removes the last pair: saszvigom_undo. */
static inline uint64_t saszvigom_graph_undo(struct saszvigom_graph *graph)
{
    return saszvigom_graph_keep(
        graph, saszvigom_undo(graph->n, graph->made, graph->adjacency, sizeof graph->adjacency,
                              graph->weights, sizeof graph->weights, graph->inverse,
                              sizeof graph->inverse, graph->sequence, sizeof graph->sequence));
}

/* Finds the vertices that may be matched with vertex a, and writes them to row:
   saszvigom_row. If it is refused, row is all 0. Call it again after a pick or
   an undo. */
static inline uint64_t saszvigom_graph_row(struct saszvigom_graph *graph, uint64_t a)
{
    memset(graph->row, 0, sizeof graph->row);
    return saszvigom_row(graph->n, graph->made, a, graph->adjacency, sizeof graph->adjacency,
                         graph->weights, sizeof graph->weights, graph->inverse,
                         sizeof graph->inverse, graph->sequence, sizeof graph->sequence,
                         graph->row, sizeof graph->row);
}

/* Tells whether b may be matched with the vertex of the last
   saszvigom_graph_row; false if there is no such vertex. */
static inline bool saszvigom_graph_in_row(const struct saszvigom_graph *graph, uint64_t b)
{
    return graph->n <= SASZVIGOM_MAX_VERTICES && b < graph->n && graph->row[b] == 1;
}

/* Returns the vertex that v is matched with, or SASZVIGOM_UNUSED if v is
   unmatched or not there. */
static inline unsigned saszvigom_graph_partner(const struct saszvigom_graph *graph, uint64_t v)
{
    uint64_t k;
    if (graph->n > SASZVIGOM_MAX_VERTICES || v >= graph->n)
        return SASZVIGOM_UNUSED;
    for (k = 0; k < graph->n && k / 2u < graph->made; k++)
        if (graph->sequence[k] == v && graph->sequence[k ^ 1u] < graph->n)
            return graph->sequence[k ^ 1u];
    return SASZVIGOM_UNUSED;
}

/* Makes a list of calls: saszvigom_replay. The lengths count numbers. Null for
   answers is room for none. Null for calls is the empty list if the length is
   0, and else a list of one number, with the cause SASZVIGOM_LIST_CUT at 0. */
static inline uint64_t saszvigom_graph_replay(struct saszvigom_graph *graph, const uint64_t *calls,
                                              size_t calls_len, uint64_t *answers,
                                              size_t answers_len)
{
    const uint64_t no_calls = 0;
    uint64_t no_answers = 0;
    if (calls == NULL) {
        calls = &no_calls;
        calls_len = calls_len > 0 ? 1 : 0;
    }
    if (answers == NULL) {
        answers = &no_answers;
        answers_len = 0;
    }
    return saszvigom_graph_keep(
        graph, saszvigom_replay(graph->n, graph->made, graph->adjacency, sizeof graph->adjacency,
                                graph->weights, sizeof graph->weights, graph->inverse,
                                sizeof graph->inverse, graph->sequence, sizeof graph->sequence,
                                calls, calls_len, answers, answers_len));
}

/* Explains what a call over the graph returned, in one line that says what is
   wrong in the graph: saszvigom_explain_with. The arguments are those of
   saszvigom_explain, with the graph in place of n. */
static inline size_t saszvigom_graph_explain(char *text, size_t size, uint64_t number,
                                             const struct saszvigom_graph *graph,
                                             enum saszvigom_from from)
{
    return saszvigom_explain_with(text, size, number, graph->n, from, graph->adjacency,
                                  sizeof graph->adjacency, graph->weights, sizeof graph->weights);
}

#ifdef __cplusplus
}
#endif

#endif
