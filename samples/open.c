/*
 * Opens graphs through saszvigom.h alone, and prints what is found. The weights
 * are made up, so that you can follow by hand: in use, draw them.
 *
 *     cc open.c $(pkg-config --cflags --libs saszvigom) -o open
 */
#include "saszvigom.h"

#include <stdio.h>
#include <string.h>

#define MOST 4 /* vertices */

struct edge {
    unsigned i, j, weight;
};

static void print_words(const uint8_t *words, size_t rows, size_t columns)
{
    for (size_t i = 0; i < rows; i++) {
        for (size_t j = 0; j < columns; j++)
            printf(" %6u", saszvigom_word(words, i * columns + j));
        printf("\n");
    }
}

/* Opens the graph of n vertices with these edges. */
static void open_graph(const char *name, size_t n, const struct edge *edges, size_t count)
{
    uint8_t adjacency[SASZVIGOM_ADJACENCY_BYTES(MOST)];
    uint8_t weights[SASZVIGOM_WEIGHTS_BYTES(MOST)];
    uint8_t inverse[SASZVIGOM_INVERSE_BYTES(MOST)];
    uint8_t sequence[SASZVIGOM_SEQUENCE_BYTES(MOST)];
    uint8_t witness[SASZVIGOM_WITNESS_BYTES(MOST)];
    uint8_t work[SASZVIGOM_WORK_BYTES(MOST)];

    /* No edges. Every two vertices have a weight, adjacent or not. */
    memset(adjacency, 0, sizeof adjacency);
    for (size_t index = 0; index < n * (n - 1) / 2; index++)
        saszvigom_store_word(weights, index, 1);
    for (const struct edge *e = edges; e < edges + count; e++) {
        adjacency[e->i * n + e->j] = 1;
        adjacency[e->j * n + e->i] = 1;
        if (!saszvigom_store_word(weights, saszvigom_weight_index(n, e->i, e->j), e->weight)) {
            printf("%s: not opened\n", name); /* it is not a word */
            return;
        }
    }

    const uint64_t number = saszvigom_open(n, adjacency, sizeof adjacency, weights, sizeof weights,
                                           inverse, sizeof inverse, sequence, sizeof sequence,
                                           witness, sizeof witness, work, sizeof work);

    printf("%s: ", name);
    switch (saszvigom_kind_of(number)) {
    case SASZVIGOM_OPENED:
        printf("opened, with inverse\n");
        print_words(inverse, n, n);
        break;
    case SASZVIGOM_SINGULAR:
        printf("singular, first dependent column %u, with witness\n", saszvigom_column_of(number));
        print_words(witness, 1, n);
        break;
    default:
        if (saszvigom_cause_of(number) == SASZVIGOM_ADJACENCY_FAULT)
            printf("refused, cause 3 at row %u, column %u\n", saszvigom_fault_row(number, n),
                   saszvigom_fault_column(number, n));
        else
            printf("refused, cause %u at place %u\n", saszvigom_cause_of(number),
                   saszvigom_place_of(number));
    }
}

int main(void)
{
    const struct edge path[] = {{0, 1, 2}, {1, 2, 3}, {3, 2, 5}};
    const struct edge weight_0[] = {{0, 1, 2}, {1, 2, 0}, {2, 3, 5}};
    const struct edge weight_65537[] = {{0, 1, 2}, {1, 2, 65537}, {2, 3, 5}};

    open_graph("path of four vertices", 4, path, 3);
    open_graph("path of three vertices", 3, path, 2);
    open_graph("path with a weight of 65537", 4, weight_65537, 3);
    open_graph("path with a weight of 0", 4, weight_0, 3);
    return 0;
}
