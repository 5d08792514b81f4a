/*
 * Turns a graph in the DIMACS edge format into a sheet: dimacs GRAPH SEED >SHEET,
 * where GRAPH is a file, or - for standard input. saszvigom_read_dimacs reads it.
 * Nothing is written unless the whole graph is in order. Messages begin with the
 * name by which the program is called.
 */
#include "saszvigom_graph.h"
#include "text.h"

#include <errno.h>
#include <stdlib.h>

static struct saszvigom_graph graph;

static int fail(const char *program, const char *what, const char *name)
{
    fprintf(stderr, "%s: cannot %s %s: %s\n", program, what, name, strerror(errno));
    return 1;
}

/* Writes the records of the graph; returns how many bytes they have. */
static size_t make_sheet(uint8_t sheet[SASZVIGOM_GOOD_SHEET_BYTES_MAX], uint32_t seed)
{
    size_t length = 0;
    sheet[length++] = SASZVIGOM_RECORD_SIZE;
    sheet[length++] = (uint8_t)graph.n;
    sheet[length++] = SASZVIGOM_RECORD_SEED;
    for (unsigned shift = 0; shift < 32; shift += 8)
        sheet[length++] = (uint8_t)(seed >> shift & 0xFFu);
    for (unsigned i = 0; i < graph.n; i++)
        for (unsigned j = i + 1; j < graph.n; j++)
            if (saszvigom_graph_adjacent(&graph, i, j)) {
                sheet[length++] = SASZVIGOM_RECORD_EDGE;
                sheet[length++] = (uint8_t)i;
                sheet[length++] = (uint8_t)j;
            }
    sheet[length++] = SASZVIGOM_RECORD_END;
    return length;
}

int main(int argc, char **argv)
{
    static uint8_t sheet[SASZVIGOM_GOOD_SHEET_BYTES_MAX];
    struct text text;
    uint32_t seed;
    const char *const program = argc > 0 ? argv[0] : "dimacs";
    if (argc != 3) {
        fprintf(stderr, "usage: %s GRAPH SEED\n", program);
        return 2;
    }
    if (!is_seed(argv[2], &seed)) {
        fprintf(stderr, "%s: " SEED_RULE "\n", program);
        return 2;
    }
    const char *const name = strcmp(argv[1], "-") == 0 ? "standard input" : argv[1];
    FILE *const file = name == argv[1] ? fopen(name, "rb") : stdin;
    if (file == NULL)
        return fail(program, "open", name);
    if (!text_read(&text, file))
        return fail(program, "read", name);
    const uint64_t number = saszvigom_graph_read_dimacs(&graph, text.bytes, text.length, seed);
    free(text.bytes);
    if (saszvigom_cause_of(number) != SASZVIGOM_NO_CAUSE) {
        char line[SASZVIGOM_LINE_BYTES];
        saszvigom_explain(line, sizeof line, number, graph.n, SASZVIGOM_FROM_DIMACS);
        fprintf(stderr, "%s: %s: %s\n", program, name, line);
        return 1;
    }
    const size_t length = make_sheet(sheet, seed);
    if (fwrite(sheet, 1, length, stdout) != length || fflush(stdout) != 0)
        return fail(program, "write", "the sheet");
    return 0;
}
