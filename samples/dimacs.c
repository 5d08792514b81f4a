/*
 * Reads graphs in the DIMACS edge format, and matches their vertices. The text
 * counts vertices from 1 and the library from 0; what is printed counts as the
 * text does.
 *
 *     cc dimacs.c $(pkg-config --cflags --libs saszvigom) -o dimacs
 */
#include "saszvigom_graph.h"

#include <stdio.h>
#include <string.h>

#define SEEDS 3

static struct saszvigom_graph graph; /* large, so not on the stack */

/* Shows a line of a text, counted from 1. */
static void show_line(const char *text, uint64_t line)
{
    for (; line > 1; line--)
        text = strchr(text, '\n') + 1;
    printf("    line: %.*s\n", (int)strcspn(text, "\n"), text);
}

/* Reads a text with a seed; tells whether it is in order. The struct has room
   for every graph, so the place of a refusal is a line, or 0 if no line is at
   fault. */
static bool read_text(const char *text, uint32_t seed)
{
    const uint64_t number = saszvigom_graph_read_dimacs(&graph, text, strlen(text), seed);
    char line[SASZVIGOM_LINE_BYTES];
    saszvigom_explain(line, sizeof line, number, graph.n, SASZVIGOM_FROM_DIMACS);
    printf("    %s\n", line);
    if (saszvigom_cause_of(number) == SASZVIGOM_NO_CAUSE)
        return true;
    if (saszvigom_line_of(number) != 0)
        show_line(text, saszvigom_line_of(number));
    return false;
}

/* Opens the graph, with the draws of other seeds while that is undecided; tells
   whether it has an inverse. Prints each verdict by its letter: F full, O odd, U
   undecided. */
static bool open_graph(uint32_t seed)
{
    const uint32_t last = seed + SEEDS;
    for (;;) {
        const enum saszvigom_verdict verdict =
            saszvigom_verdict_of(saszvigom_graph_open(&graph), graph.n);
        printf("    verdict %c with the draws of seed %u\n", (char)verdict, (unsigned)seed);
        if (verdict != SASZVIGOM_VERDICT_UNDECIDED || ++seed == last)
            return verdict == SASZVIGOM_VERDICT_FULL;
        saszvigom_graph_draw(&graph, seed);
    }
}

static void match(const char *name, const char *text)
{
    uint64_t number;
    printf("%s:\n", name);
    if (!read_text(text, 1) || !open_graph(1))
        return;
    while (number = saszvigom_graph_automatic(&graph),
           saszvigom_cause_of(number) == SASZVIGOM_NO_CAUSE)
        printf("    %u and %u\n", saszvigom_smaller_of(number) + 1u,
               saszvigom_larger_of(number) + 1u);
}

int main(void)
{
    match("the Petersen graph",
          "c outer ring, spokes, inner star\n"
          "p edge 10 15\n"
          "e 1 2\ne 2 3\ne 3 4\ne 4 5\ne 5 1\n"
          "e 1 6\ne 2 7\ne 3 8\ne 4 9\ne 5 10\n"
          "e 6 8\ne 8 10\ne 10 7\ne 7 9\ne 9 6\n");
    match("a ring of four, with an edge in both orders",
          "p edge 4 5\ne 1 2\ne 2 3\ne 3 4\ne 4 1\ne 1 4\n");
    match("a star", "p edge 4 3\ne 1 2\ne 1 3\ne 1 4\n");
    match("a triangle", "p edge 3 3\ne 1 2\ne 2 3\ne 3 1\n");
    match("a vertex too many", "c two edges\np edge 4 2\ne 1 2\ne 3 5\n");
    match("another word", "p col 4 2\ne 1 2\ne 3 4\n");
    match("an edge too few", "p edge 4 3\ne 1 2\ne 3 4\n");
    return 0;
}
