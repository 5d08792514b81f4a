/*
 * A whole session with the struct of saszvigom_graph.h: the vertices of a graph
 * are matched by hand, with mistakes and an undo, and automatically to the end.
 *
 *     cc graph.c $(pkg-config --cflags --libs saszvigom) -o graph
 */
#include "saszvigom_graph.h"

#include <stdio.h>

static struct saszvigom_graph graph; /* large, so not on the stack */

/* Prints what a call returned; tells whether it was carried out. */
static bool say(const char *what, uint64_t number)
{
    char line[SASZVIGOM_LINE_BYTES];
    saszvigom_graph_explain(line, sizeof line, number, &graph, SASZVIGOM_FROM_CALL);
    printf("%s -> %s\n", what, line);
    return saszvigom_cause_of(number) == SASZVIGOM_NO_CAUSE;
}

static void pick(unsigned a, unsigned b)
{
    char what[32];
    (void)snprintf(what, sizeof what, "pick %u and %u", a, b);
    say(what, saszvigom_graph_pick(&graph, a, b));
}

static void print_partners(unsigned a)
{
    if (!say("row", saszvigom_graph_row(&graph, a)))
        return;
    printf("%u may be matched with", a);
    for (unsigned b = 0; b < graph.n; b++)
        if (saszvigom_graph_in_row(&graph, b))
            printf(" %u", b);
    printf("\n");
}

int main(void)
{
    /* Two triangles, 0 1 2 and 3 4 5, and an edge from 2 to 3. */
    const unsigned edges[][2] = {{0, 1}, {0, 2}, {1, 2}, {3, 4}, {3, 5}, {4, 5}, {2, 3}};
    saszvigom_graph_init(&graph, 6);
    for (size_t k = 0; k < sizeof edges / sizeof edges[0]; k++)
        if (!saszvigom_graph_set_edge(&graph, edges[k][0], edges[k][1]))
            return 1;

    say("draw", saszvigom_graph_draw(&graph, 1));
    const uint64_t number = saszvigom_graph_open(&graph);
    say("open", number);
    if (saszvigom_kind_of(number) != SASZVIGOM_OPENED)
        return 1; /* draw again, as in draw.c */

    print_partners(2);
    pick(2, 1); /* it would leave 0 alone */
    pick(0, 4);
    pick(0, 6);
    pick(1, 0);
    pick(1, 2);
    say("undo", saszvigom_graph_undo(&graph));
    pick(2, 3);

    while (say("automatic", saszvigom_graph_automatic(&graph)))
        continue;
    for (unsigned v = 0; v < graph.n; v++)
        printf("%u is matched with %u\n", v, saszvigom_graph_partner(&graph, v));
    return 0;
}
