/*
 * Draw, open, draw again: looks for the inverse of some graphs with the draws of
 * a few seeds, and says what is then known.
 *
 *     cc draw.c $(pkg-config --cflags --libs saszvigom) -o draw
 */
#include "saszvigom_graph.h"

#include <stdio.h>

#define SEEDS 3 /* to try before giving up */

static struct saszvigom_graph graph; /* large, so not on the stack */

/* Makes the graph of n vertices with these edges, without weights yet. */
static void make_graph(const char *name, uint64_t n, const unsigned edges[][2], size_t count)
{
    printf("%s\n", name);
    saszvigom_graph_init(&graph, n);
    for (size_t k = 0; k < count; k++)
        saszvigom_graph_set_edge(&graph, edges[k][0], edges[k][1]);
}

/* Opens the graph and says what is found; returns the verdict. */
static enum saszvigom_verdict open_graph(const char *weights)
{
    char line[SASZVIGOM_LINE_BYTES];
    const uint64_t number = saszvigom_graph_open(&graph);
    saszvigom_graph_explain(line, sizeof line, number, &graph, SASZVIGOM_FROM_CALL);
    printf("  %s: %s\n", weights, line);
    return saszvigom_verdict_of(number, graph.n);
}

static void look_for_inverse(void)
{
    for (uint32_t seed = 1; seed <= SEEDS; seed++) {
        char weights[32];
        (void)snprintf(weights, sizeof weights, "draws of seed %u", (unsigned)seed);
        saszvigom_graph_draw(&graph, seed);
        switch (open_graph(weights)) {
        case SASZVIGOM_VERDICT_FULL:
            printf("  so there is a perfect matching\n");
            return;
        case SASZVIGOM_VERDICT_ODD:
            printf("  so there is no perfect matching, and no draws help\n");
            return;
        case SASZVIGOM_VERDICT_UNDECIDED: /* other draws may open it */
        case SASZVIGOM_NO_VERDICT:        /* a graph with drawn weights is not refused */
            break;
        }
    }
    printf("  so it is undecided whether there is a perfect matching\n");
}

int main(void)
{
    const unsigned ring[][2] = {{0, 1}, {1, 3}, {3, 2}, {2, 0}};
    const unsigned star[][2] = {{0, 1}, {0, 2}, {0, 3}};
    const unsigned triangle[][2] = {{0, 1}, {1, 2}, {2, 0}};

    /* 0 with 1 and 2 with 3 is a perfect matching, which equal weights hide. */
    make_graph("a ring of four", 4, ring, 4);
    for (unsigned i = 0; i < 4; i++)
        for (unsigned j = 0; j < i; j++)
            saszvigom_graph_set_weight(&graph, i, j, 1);
    open_graph("equal weights");
    look_for_inverse();

    make_graph("a star of four", 4, star, 3);
    look_for_inverse();
    make_graph("a triangle", 3, triangle, 3);
    look_for_inverse();
    return 0;
}
