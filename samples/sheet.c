/*
 * Reads sheets, opens their graphs and matches the vertices. If the verdict is U,
 * the weights may have cancelled: the graph is opened again with other draws.
 *
 *     cc sheet.c $(pkg-config --cflags --libs saszvigom) -o sheet
 */
#include "saszvigom_text.h"

#include <stdio.h>

#define MOST SASZVIGOM_MAX_VERTICES
#define REDRAWS 3

/* A graph, and the session on it once it is opened. */
static struct {
    uint64_t n;
    uint8_t adjacency[SASZVIGOM_ADJACENCY_BYTES(MOST)];
    uint8_t weights[SASZVIGOM_WEIGHTS_BYTES(MOST)];
    uint8_t inverse[SASZVIGOM_INVERSE_BYTES(MOST)];
    uint8_t sequence[SASZVIGOM_SEQUENCE_BYTES(MOST)];
} s;

/* Opens the graph; returns the verdict. */
static enum saszvigom_verdict open_graph(void)
{
    static uint8_t witness[SASZVIGOM_WITNESS_BYTES(MOST)], work[SASZVIGOM_WORK_BYTES(MOST)];
    const uint64_t number = saszvigom_open(
        s.n, s.adjacency, sizeof s.adjacency, s.weights, sizeof s.weights, s.inverse,
        sizeof s.inverse, s.sequence, sizeof s.sequence, witness, sizeof witness, work,
        sizeof work);
    printf("%s", saszvigom_kind_text(saszvigom_kind_of(number)));
    return saszvigom_verdict_of(number, s.n);
}

/* Opens the graph with the draws of the sheet, and then of other seeds while that
   is undecided; returns the last verdict. */
static enum saszvigom_verdict open_with_some_draws(void)
{
    enum saszvigom_verdict verdict = open_graph();
    printf(" with the draws of the sheet\n");
    for (uint32_t seed = 1; verdict == SASZVIGOM_VERDICT_UNDECIDED && seed <= REDRAWS; seed++) {
        saszvigom_draws(s.n, seed, s.weights, sizeof s.weights);
        verdict = open_graph();
        printf(" with the draws of seed %u\n", (unsigned)seed);
    }
    return verdict;
}

static void match_all(void)
{
    uint64_t made = 0;
    for (;;) {
        const uint64_t number = saszvigom_automatic(
            s.n, made, s.adjacency, sizeof s.adjacency, s.weights, sizeof s.weights, s.inverse,
            sizeof s.inverse, s.sequence, sizeof s.sequence);
        if (saszvigom_cause_of(number) != SASZVIGOM_NO_CAUSE)
            return; /* all are matched */
        made = saszvigom_made_of(number);
        printf("%u and %u\n", saszvigom_smaller_of(number), saszvigom_larger_of(number));
    }
}

static void list(const char *name, const uint8_t *sheet, size_t length)
{
    const uint64_t number = saszvigom_read(sheet, length, s.adjacency, sizeof s.adjacency,
                                           s.weights, sizeof s.weights);
    char line[SASZVIGOM_LINE_BYTES];
    saszvigom_explain(line, sizeof line, number, 0, SASZVIGOM_FROM_SHEET);
    printf("%s: %s\n", name, line);
    if (saszvigom_kind_of(number) != SASZVIGOM_SHEET)
        return;
    s.n = saszvigom_size_of(number);
    switch (open_with_some_draws()) {
    case SASZVIGOM_VERDICT_FULL:
        printf("verdict F: there is a perfect matching\n");
        match_all();
        break;
    case SASZVIGOM_VERDICT_ODD:
        printf("verdict O: there is no perfect matching\n");
        break;
    case SASZVIGOM_VERDICT_UNDECIDED:
        printf("verdict U: undecided under all these draws\n");
        break;
    case SASZVIGOM_NO_VERDICT: /* opening refuses no sheet that was read */
        break;
    }
}

int main(void)
{
    /* Each has its size, its seed, its edges and its end. */
    const uint8_t ring[] = {1, 4, 3, 0xAA, 0xC8, 3, 0, 2, 0, 1, 2, 1, 2, 2, 2, 3, 2, 3, 0, 4};
    const uint8_t star[] = {1, 4, 3, 0, 0, 0, 0, 2, 0, 1, 2, 0, 2, 2, 0, 3, 4};
    const uint8_t triangle[] = {1, 3, 3, 0, 0, 0, 0, 2, 0, 1, 2, 0, 2, 2, 1, 2, 4};
    const uint8_t twice[] = {1, 4, 3, 0, 0, 0, 0, 2, 0, 1, 2, 2, 3, 2, 1, 0, 4};

    list("ring", ring, sizeof ring);
    list("star", star, sizeof star);
    list("triangle", triangle, sizeof triangle);
    list("half a ring", ring, sizeof ring / 2);
    list("an edge twice", twice, sizeof twice);
    return 0;
}
