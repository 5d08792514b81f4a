/*
 * Calls the functions of saszvigom_graph.h and compares what they return and what
 * is in the graph with what is expected, and with the entries of saszvigom.h.
 * Stops with status 1 at the first difference, and prints how many cases there
 * were.
 */
#include "saszvigom_graph.h"

#include <stdio.h>
#include <stdlib.h>

#define COUNT(array) (sizeof(array) / sizeof(array)[0])

static size_t cases;
static struct saszvigom_graph graph, before;

static void check(const char *what, bool holds)
{
    cases++;
    if (!holds) {
        printf("differs: %s\n", what);
        exit(1);
    }
}

static void check_number(const char *what, uint64_t number, uint64_t expected)
{
    cases++;
    if (number != expected) {
        printf("differs: %s: 0x%llx, expected 0x%llx\n", what, (unsigned long long)number,
               (unsigned long long)expected);
        exit(1);
    }
}

static bool all(const uint8_t *bytes, size_t length, uint8_t value)
{
    for (size_t i = 0; i < length; i++)
        if (bytes[i] != value)
            return false;
    return true;
}

/* Tells whether the graph is byte for byte the one kept before. */
static bool unchanged(void)
{
    return memcmp(&graph, &before, sizeof graph) == 0;
}

/* Makes a ring of n vertices with drawn weights. */
static void make_ring(uint64_t n)
{
    check("init", saszvigom_graph_init(&graph, n));
    for (uint64_t i = 0; i < n; i++)
        check("edge of a ring", saszvigom_graph_set_edge(&graph, (i + 1) % n, i));
    check_number("draw", saszvigom_graph_draw(&graph, 1), 0x700 | n * (n - 1) / 2 << 16);
}

static void open_ring(uint64_t n)
{
    make_ring(n);
    check_number("ring", saszvigom_graph_open(&graph), 0x100);
}

static void sizes(void)
{
    const uint64_t large[] = {97, 256, 65536 + 4, 4294967296u + 4, UINT64_MAX};

    memset(&graph, 0xA5, sizeof graph);
    check("init of 0", saszvigom_graph_init(&graph, 0));
    check("no vertices, no pairs", graph.n == 0 && graph.made == 0);
    check_number("draw for 0", saszvigom_graph_draw(&graph, 5), 0x700);
    check_number("automatic of 0 before opening", saszvigom_graph_automatic(&graph), 11);
    check_number("open of 0", saszvigom_graph_open(&graph), 0x100);
    check_number("automatic of 0", saszvigom_graph_automatic(&graph), 11);
    check_number("undo of 0", saszvigom_graph_undo(&graph), 11);
    check_number("pick of 0", saszvigom_graph_pick(&graph, 0, 0), 7);
    check_number("row of 0", saszvigom_graph_row(&graph, 0), 7);
    check_number("replay of 0", saszvigom_graph_replay(&graph, NULL, 0, NULL, 0), 0x500);
    check("edge of 0", !saszvigom_graph_set_edge(&graph, 0, 0));
    check("partner in 0", saszvigom_graph_partner(&graph, 0) == SASZVIGOM_UNUSED);

    check("init of 1", saszvigom_graph_init(&graph, 1));
    check_number("open of 1", saszvigom_graph_open(&graph), 0x200);
    check("witness of 1", saszvigom_word(graph.witness, 0) == 1);
    check_number("pick of 1 after a witness", saszvigom_graph_pick(&graph, 0, 0), 6);
    check("edge of 1", !saszvigom_graph_set_edge(&graph, 0, 0));
    check("weight of 1", !saszvigom_graph_set_weight(&graph, 0, 0, 1));

    memset(&graph, 0xA5, sizeof graph);
    check("init of 96", saszvigom_graph_init(&graph, 96));
    check("nothing but unused vertices",
          graph.n == 96 && graph.made == 0 && all(graph.adjacency, sizeof graph.adjacency, 0) &&
              all(graph.weights, sizeof graph.weights, 0) &&
              all(graph.inverse, sizeof graph.inverse, 0) &&
              all(graph.sequence, sizeof graph.sequence, SASZVIGOM_UNUSED) &&
              all(graph.witness, sizeof graph.witness, 0) &&
              all(graph.work, sizeof graph.work, 0) && all(graph.row, sizeof graph.row, 0));
    check("about 55 KB", sizeof graph > 55000 && sizeof graph < 56000);

    for (size_t k = 0; k < COUNT(large); k++) {
        const uint64_t call[] = {SASZVIGOM_CALL_AUTOMATIC, 0, 0}, unknown[] = {9, 0, 0};
        uint64_t answer = 0;
        check("init of too many", !saszvigom_graph_init(&graph, large[k]));
        before = graph;
        check_number("open of too many", saszvigom_graph_open(&graph), 1);
        check_number("draw for too many", saszvigom_graph_draw(&graph, 1), 1);
        check_number("pick of too many", saszvigom_graph_pick(&graph, 0, 1), 1);
        check_number("automatic of too many", saszvigom_graph_automatic(&graph), 1);
        check_number("undo of too many", saszvigom_graph_undo(&graph), 1);
        check_number("row of too many", saszvigom_graph_row(&graph, 0), 1);
        check_number("replay of too many", saszvigom_graph_replay(&graph, call, 3, &answer, 1), 1);
        check_number("answer of too many", answer, 0);
        check_number("unknown call of too many", saszvigom_graph_replay(&graph, unknown, 3, &answer, 1), 1);
        check_number("cut list of too many", saszvigom_graph_replay(&graph, NULL, 1, NULL, 0), 1);
        check_number("answer still", answer, 0);
        check("edge of too many", !saszvigom_graph_set_edge(&graph, 0, 1));
        check("no edge of too many", !saszvigom_graph_clear_edge(&graph, 0, 1));
        check("adjacent of too many", !saszvigom_graph_adjacent(&graph, 0, 1));
        check("weight of too many", !saszvigom_graph_set_weight(&graph, 0, 1, 1));
        check("no weight of too many", saszvigom_graph_weight(&graph, 0, 1) == 0);
        check("in row of too many", !saszvigom_graph_in_row(&graph, 0));
        check("far in row of too many", !saszvigom_graph_in_row(&graph, 96));
        check("far partner of too many", saszvigom_graph_partner(&graph, 96) == SASZVIGOM_UNUSED);
        check("partner of too many", saszvigom_graph_partner(&graph, 0) == SASZVIGOM_UNUSED);
        check("too many, unchanged", unchanged());
    }
}

static void edges(void)
{
    const uint64_t n = 5;
    check("init", saszvigom_graph_init(&graph, n));
    check("edge", saszvigom_graph_set_edge(&graph, 3, 1));
    check("both bytes", graph.adjacency[1 * n + 3] == 1 && graph.adjacency[3 * n + 1] == 1);
    check("adjacent", saszvigom_graph_adjacent(&graph, 1, 3) && saszvigom_graph_adjacent(&graph, 3, 1));
    check("others not", !saszvigom_graph_adjacent(&graph, 1, 2));
    check("edge again", saszvigom_graph_set_edge(&graph, 1, 3));
    before = graph;

    const uint64_t wrong[][2] = {{5, 0}, {0, 5}, {2, 2}, {0, 96}, {UINT64_MAX, 0},
                                 {0, UINT64_MAX}, {4294967296u, 1}};
    for (size_t k = 0; k < COUNT(wrong); k++) {
        const uint64_t i = wrong[k][0], j = wrong[k][1];
        check("wrong edge", !saszvigom_graph_set_edge(&graph, i, j));
        check("wrong edge to clear", !saszvigom_graph_clear_edge(&graph, i, j));
        check("wrong adjacent", !saszvigom_graph_adjacent(&graph, i, j));
        check("wrong weight", !saszvigom_graph_set_weight(&graph, i, j, 7));
        check("weight of wrong", saszvigom_graph_weight(&graph, i, j) == 0);
        check("wrong, unchanged", unchanged());
    }
    check("clear", saszvigom_graph_clear_edge(&graph, 1, 3));
    check("both bytes 0", all(graph.adjacency, sizeof graph.adjacency, 0));
    check("clear again", saszvigom_graph_clear_edge(&graph, 3, 1));
}

static void weights(void)
{
    const uint64_t wrong[] = {0, 65521, 65535, 65536, 65537, 131073, 4294967297u, UINT64_MAX};
    check("init", saszvigom_graph_init(&graph, 4));
    check("weight", saszvigom_graph_set_weight(&graph, 2, 1, 65520));
    check("weight there", saszvigom_word(graph.weights, 3) == 65520);
    check("weight read", saszvigom_graph_weight(&graph, 1, 2) == 65520 &&
                             saszvigom_graph_weight(&graph, 2, 1) == 65520);
    check("smallest weight", saszvigom_graph_set_weight(&graph, 2, 3, 1));
    check("not set", saszvigom_graph_weight(&graph, 0, 1) == 0);
    before = graph;
    for (size_t k = 0; k < COUNT(wrong); k++) {
        check("weight out of range", !saszvigom_graph_set_weight(&graph, 1, 2, wrong[k]));
        check("out of range, unchanged", unchanged());
    }
    check_number("open without all weights", saszvigom_graph_open(&graph), 4);
    check("open refused, unchanged", unchanged());
    check_number("draw", saszvigom_graph_draw(&graph, 0), 0x60700);
    check("draws of seed 0", saszvigom_graph_weight(&graph, 0, 1) == 15471 &&
                                 saszvigom_graph_weight(&graph, 3, 2) == 40751);
}

static void sheets(void)
{
    const uint8_t sheet[] = {1, 4, 3, 0, 0, 0, 0, 2, 0, 1, 2, 0, 2, 2, 1, 3, 4};
    open_ring(6);
    check_number("a pair", saszvigom_graph_automatic(&graph), 0x101000300);
    before = graph;
    check_number("null sheet", saszvigom_graph_read(&graph, NULL, 0), 13);
    check_number("null sheet with a length", saszvigom_graph_read(&graph, NULL, 17), 13);
    check_number("no bytes", saszvigom_graph_read(&graph, sheet, 0), 13);
    check_number("half a sheet", saszvigom_graph_read(&graph, sheet, 9), 0x9000D);
    check("refused sheets, unchanged", unchanged());
    check_number("and the session goes on", saszvigom_graph_automatic(&graph), 0x203020300);
    check_number("a row of it", saszvigom_graph_row(&graph, 4), 0x200000400);

    check_number("sheet", saszvigom_graph_read(&graph, sheet, sizeof sheet), 0x400030600);
    check("size", graph.n == 4 && graph.made == 0);
    check("no session", all(graph.inverse, sizeof graph.inverse, 0) &&
                            all(graph.sequence, sizeof graph.sequence, SASZVIGOM_UNUSED) &&
                            all(graph.row, sizeof graph.row, 0));
    check("edges of the sheet", saszvigom_graph_adjacent(&graph, 3, 1) &&
                                    saszvigom_graph_adjacent(&graph, 0, 2) &&
                                    !saszvigom_graph_adjacent(&graph, 2, 3));
    check("weights of the sheet", saszvigom_graph_weight(&graph, 3, 2) == 40751);
    check_number("pick before opening", saszvigom_graph_pick(&graph, 0, 2), 6);
    check_number("opening", saszvigom_graph_open(&graph), 0x100);
    check_number("rest singular", saszvigom_graph_pick(&graph, 0, 1), 10);
    check_number("automatic", saszvigom_graph_automatic(&graph), 0x102000300);
    check_number("a sheet of too many",
                 saszvigom_graph_read(&graph, (const uint8_t[]){1, 97}, 2), 1);

    check("init of too many", !saszvigom_graph_init(&graph, 97));
    check_number("sheet after too many", saszvigom_graph_read(&graph, sheet, sizeof sheet),
                 0x400030600);
    check_number("opened", saszvigom_graph_open(&graph), 0x100);
}

/* Reads a text with seed 0. */
static uint64_t read_text(const char *text)
{
    return saszvigom_graph_read_dimacs(&graph, text, strlen(text), 0);
}

static void dimacs(void)
{
    const char *const text = "c a path\np edge 4 4\ne 1 2\ne 1 3\ne 4 2\ne 2 4\n";
    const uint8_t sheet[] = {1, 4, 3, 0, 0, 0, 0, 2, 0, 1, 2, 0, 2, 2, 1, 3, 4};
    uint8_t bytes[64];
    open_ring(6);
    check_number("a pair", saszvigom_graph_automatic(&graph), 0x101000300);
    before = graph;
    check_number("null text", saszvigom_graph_read_dimacs(&graph, NULL, 0, 0), 16);
    check_number("null text with a length", saszvigom_graph_read_dimacs(&graph, NULL, 17, 0), 16);
    check_number("no text", read_text(""), 16);
    check_number("comments only", read_text("c\ncc\n"), 16);
    check_number("a text that is cut", saszvigom_graph_read_dimacs(&graph, text, 13, 0), 0x20010);
    check_number("too few lines", saszvigom_graph_read_dimacs(&graph, text, strlen(text) - 6, 0), 17);
    check_number("a text of too many", read_text("c\np edge 97 0\n"), 0x20001);
    check_number("no such vertex", read_text("p edge 4 2\ne 1 2\ne 0 1\n"), 0x3000E);
    check_number("a second p", read_text("p edge 4 0\np edge 4 0\n"), 0x20010);
    check("refused texts, unchanged", unchanged());
    check_number("and the session goes on", saszvigom_graph_automatic(&graph), 0x203020300);
    check_number("a row of it", saszvigom_graph_row(&graph, 4), 0x200000400);

    check_number("text", read_text(text), 0x400030600);
    check("size", graph.n == 4 && graph.made == 0);
    check("no session", all(graph.inverse, sizeof graph.inverse, 0) &&
                            all(graph.sequence, sizeof graph.sequence, SASZVIGOM_UNUSED) &&
                            all(graph.row, sizeof graph.row, 0));
    before = graph;
    check_number("the same graph from a sheet",
                 saszvigom_graph_read(&graph, sheet, sizeof sheet), 0x400030600);
    check("from either", unchanged());
    memcpy(bytes, text, strlen(text));
    check_number("the same from bytes",
                 saszvigom_graph_read_dimacs(&graph, bytes, strlen(text), 0), 0x400030600);
    check("from bytes", unchanged());
    check_number("pick before opening", saszvigom_graph_pick(&graph, 0, 2), 6);
    check_number("opening", saszvigom_graph_open(&graph), 0x100);
    check_number("automatic", saszvigom_graph_automatic(&graph), 0x102000300);

    check_number("another seed", saszvigom_graph_read_dimacs(&graph, text, strlen(text), 4294967295u),
                 0x400030600);
    check("other weights", saszvigom_graph_weight(&graph, 0, 1) != saszvigom_word(before.weights, 0));
    before = graph;
    check_number("drawn", saszvigom_graph_draw(&graph, 4294967295u), 0x60700);
    check("the draws of that seed", unchanged());

    check("init of too many", !saszvigom_graph_init(&graph, 97));
    check_number("text after too many", read_text(text), 0x400030600);
    check_number("opened", saszvigom_graph_open(&graph), 0x100);
    check_number("text of no vertices", read_text("p edge 0 0\n"), 0x600);
    check_number("opened without vertices", saszvigom_graph_open(&graph), 0x100);
}

static void session(void)
{
    make_ring(6);
    check_number("pick before opening", saszvigom_graph_pick(&graph, 0, 1), 6);
    check_number("row before opening", saszvigom_graph_row(&graph, 0), 6);
    check_number("opened", saszvigom_graph_open(&graph), 0x100);

    check_number("row", saszvigom_graph_row(&graph, 0), 0x400);
    for (uint64_t b = 0; b < 8; b++)
        check("in row", saszvigom_graph_in_row(&graph, b) == (b == 1 || b == 5));
    check("far from row", !saszvigom_graph_in_row(&graph, UINT64_MAX));

    check_number("pick", saszvigom_graph_pick(&graph, 1, 0), 0x101000300);
    check("one pair", graph.made == 1 && graph.sequence[0] == 0 && graph.sequence[1] == 1);
    check("partners", saszvigom_graph_partner(&graph, 0) == 1 &&
                          saszvigom_graph_partner(&graph, 1) == 0 &&
                          saszvigom_graph_partner(&graph, 2) == SASZVIGOM_UNUSED &&
                          saszvigom_graph_partner(&graph, 6) == SASZVIGOM_UNUSED &&
                          saszvigom_graph_partner(&graph, SASZVIGOM_UNUSED) == SASZVIGOM_UNUSED);

    check_number("row of a matched vertex", saszvigom_graph_row(&graph, 1), 8);
    check("a refused row is empty", all(graph.row, sizeof graph.row, 0));
    before = graph;
    check_number("no such vertex", saszvigom_graph_pick(&graph, 2, 6), 7);
    check_number("a large vertex", saszvigom_graph_pick(&graph, UINT64_MAX, 2), 7);
    check_number("the same vertex", saszvigom_graph_pick(&graph, 2, 2), 7);
    check_number("matched", saszvigom_graph_pick(&graph, 1, 2), 8);
    check_number("not adjacent", saszvigom_graph_pick(&graph, 2, 4), 9);
    check_number("rest singular", saszvigom_graph_pick(&graph, 3, 4), 10);
    check_number("row of no vertex", saszvigom_graph_row(&graph, 6), 7);
    check("refused calls, unchanged", unchanged());

    check_number("automatic", saszvigom_graph_automatic(&graph), 0x203020300);
    check_number("automatic", saszvigom_graph_automatic(&graph), 0x305040300);
    check_number("all matched", saszvigom_graph_automatic(&graph), 11);
    check("three pairs", graph.made == 3 && saszvigom_graph_partner(&graph, 5) == 4);
    check_number("undo", saszvigom_graph_undo(&graph), 0x205040300);
    check_number("undo", saszvigom_graph_undo(&graph), 0x103020300);
    check("as before", unchanged());
    check_number("undo", saszvigom_graph_undo(&graph), 0x1000300);
    check_number("nothing to undo", saszvigom_graph_undo(&graph), 11);

    check_number("pick", saszvigom_graph_pick(&graph, 0, 1), 0x101000300);
    check("clear a matched edge", saszvigom_graph_clear_edge(&graph, 0, 1));
    check_number("malformed then", saszvigom_graph_automatic(&graph), 5);
    check("set it again", saszvigom_graph_set_edge(&graph, 0, 1));
    check("other weight", saszvigom_graph_set_weight(&graph, 2, 3,
                                                     saszvigom_graph_weight(&graph, 2, 3) % 65520 + 1));
    check_number("inverse wrong then", saszvigom_graph_automatic(&graph), 6);
    check_number("open again", saszvigom_graph_open(&graph), 0x100);
    check("no pairs", graph.made == 0 && saszvigom_graph_partner(&graph, 0) == SASZVIGOM_UNUSED);

    check("an edge less", saszvigom_graph_clear_edge(&graph, 0, 1) &&
                              saszvigom_graph_clear_edge(&graph, 0, 5));
    check_number("singular", saszvigom_graph_open(&graph), 0x200);
    check("no session", graph.made == 0);
    check_number("pick when singular", saszvigom_graph_pick(&graph, 2, 3), 6);

    graph.made = UINT64_MAX;
    check_number("pairs made by mistake", saszvigom_graph_undo(&graph), 5);
    check("partner then", saszvigom_graph_partner(&graph, 2) == SASZVIGOM_UNUSED);
    graph.sequence[0] = 2;
    graph.sequence[1] = 200;
    check("partner that is no vertex", saszvigom_graph_partner(&graph, 2) == SASZVIGOM_UNUSED);
}

/* Checks that every call of the session is refused with a number, and changes
   nothing. */
static void check_refused(uint64_t expected)
{
    const uint64_t calls[] = {SASZVIGOM_CALL_AUTOMATIC, 0, 0, SASZVIGOM_CALL_UNDO, 0, 0};
    uint64_t answers[2] = {7, 7};
    memset(graph.row, 0, sizeof graph.row);
    before = graph;
    check_number("open at fault", saszvigom_graph_open(&graph), expected);
    check_number("pick at fault", saszvigom_graph_pick(&graph, 2, 3), expected);
    check_number("automatic at fault", saszvigom_graph_automatic(&graph), expected);
    check_number("undo at fault", saszvigom_graph_undo(&graph), expected);
    check_number("row at fault", saszvigom_graph_row(&graph, 2), expected);
    check_number("list at fault", saszvigom_graph_replay(&graph, calls, 6, answers, 2), expected);
    check_number("empty list at fault", saszvigom_graph_replay(&graph, NULL, 0, NULL, 0), expected);
    check("at fault, unchanged", unchanged() && answers[0] == 7 && answers[1] == 7);
}

/* A table that is typed wrong in mid-session, and mended. */
static void faulty(void)
{
    open_ring(6);
    check_number("a pair", saszvigom_graph_automatic(&graph), 0x101000300);
    graph.adjacency[5 * 6 + 0] = 0;
    check_refused(0x305000003);
    graph.adjacency[5 * 6 + 0] = 2;
    check_refused(0x305000003);
    graph.adjacency[0 * 6 + 5] = 2;
    check_refused(0x105000003);
    check("mended", saszvigom_graph_set_edge(&graph, 0, 5));
    graph.adjacency[5 * 6 + 5] = 1;
    check_refused(0x205050003);
    graph.adjacency[5 * 6 + 5] = 255;
    check_refused(0x105050003);
    graph.adjacency[5 * 6 + 4] = 0;
    check_refused(0x305040003);
    graph.adjacency[0 * 6 + 0] = 1;
    check_refused(0x200000003);
    graph.adjacency[0 * 6 + 0] = 2;
    check_refused(0x100000003);
    graph.adjacency[0 * 6 + 0] = graph.adjacency[5 * 6 + 5] = 0;
    check("mended", saszvigom_graph_set_edge(&graph, 4, 5));
    check("one pair", graph.made == 1);
    check_number("and the session goes on", saszvigom_graph_automatic(&graph), 0x203020300);
}

static void replays(void)
{
    const uint64_t calls[] = {SASZVIGOM_CALL_PICK, 1, 0, SASZVIGOM_CALL_PICK, 2, 4,
                              SASZVIGOM_CALL_AUTOMATIC, 0, 0, SASZVIGOM_CALL_UNDO, 0, 0};
    const uint64_t unknown[] = {SASZVIGOM_CALL_UNDO, 0, 0, 9, 0, 0};
    uint64_t answers[5] = {7, 7, 7, 7, 7};
    open_ring(6);
    before = graph;
    check_number("null lists", saszvigom_graph_replay(&graph, NULL, 0, NULL, 0), 0x500);
    check_number("null calls", saszvigom_graph_replay(&graph, NULL, 0, answers, 5), 0x500);
    check_number("no calls, null answers", saszvigom_graph_replay(&graph, calls, 0, NULL, 0), 0x500);
    check_number("no answers", saszvigom_graph_replay(&graph, calls, 12, NULL, 0), 0xA0002);
    check_number("null with lengths", saszvigom_graph_replay(&graph, NULL, 12, NULL, 4), 13);
    check_number("null calls with a length", saszvigom_graph_replay(&graph, NULL, 12, answers, 4), 13);
    check_number("null answers", saszvigom_graph_replay(&graph, calls, 12, NULL, 4), 0xA0002);
    check_number("too few answers", saszvigom_graph_replay(&graph, calls, 12, answers, 3), 0xA0002);
    check_number("cut list", saszvigom_graph_replay(&graph, calls, 11, answers, 5), 0x3000D);
    check_number("unknown call", saszvigom_graph_replay(&graph, unknown, 6, answers, 5), 0x1000C);
    graph.weights[0] = graph.weights[1] = 0;
    before = graph;
    check_number("too few answers, and a weight 0", saszvigom_graph_replay(&graph, calls, 12, answers, 3), 0xA0002);
    check_number("cut list, and a weight 0", saszvigom_graph_replay(&graph, calls, 11, answers, 5), 4);
    check_number("unknown call, and a weight 0", saszvigom_graph_replay(&graph, unknown, 6, answers, 5), 4);
    check("refused lists, unchanged",
          unchanged() && answers[0] == 7 && answers[1] == 7 && answers[2] == 7 && answers[3] == 7);
    open_ring(6);
    before = graph;

    check_number("list", saszvigom_graph_replay(&graph, calls, 12, answers, 5), 0x100000500);
    check_number("its pick", answers[0], 0x101000300);
    check_number("its refused pick", answers[1], 9);
    check_number("its automatic pick", answers[2], 0x203020300);
    check_number("its undo", answers[3], 0x103020300);
    check("past the answers", answers[4] == 7);
    check("one pair", graph.made == 1 && saszvigom_graph_partner(&graph, 0) == 1);
    check_number("undo after a list", saszvigom_graph_undo(&graph), 0x1000300);
    check("as opened", unchanged());
}

/* Checks that this line explains a number with the graph, which stays as it
   was, in room of every size. */
static void check_line(const char *line, uint64_t number, enum saszvigom_from from)
{
    const size_t length = strlen(line);
    char text[SASZVIGOM_LINE_BYTES];
    before = graph;
    cases++;
    for (size_t size = sizeof text; size > 0; size--)
        if (saszvigom_graph_explain(text, size, number, &graph, from) != length ||
            strncmp(text, line, size - 1) != 0 || strlen(text) >= size) {
            printf("differs: \"%s\", expected \"%s\"\n", text, line);
            exit(1);
        }
    check("the length alone", saszvigom_graph_explain(NULL, 0, number, &graph, from) == length);
    check("explained, unchanged", unchanged());
}

static void explained(void)
{
    const enum saszvigom_from call = SASZVIGOM_FROM_CALL;
    uint64_t number;
    check("init", saszvigom_graph_init(&graph, 8));
    check_line("refused: the weight of 0 and 1 is 0 (cause 4 at 0)", saszvigom_graph_open(&graph),
               call);
    check_line("draws: weights drawn 28", saszvigom_graph_draw(&graph, 1), call);
    memset(graph.weights + 2 * saszvigom_weight_index(8, 7, 3), 0, 2);
    number = saszvigom_graph_open(&graph);
    check_line("refused: the weight of 3 and 7 is 0 (cause 4 at 21)", number, call);
    memset(graph.weights + 2 * saszvigom_weight_index(8, 7, 3), 255, 2);
    check_line("refused: the weight of 3 and 7 is 65535, above 65520 (cause 4 at 21)", number,
               SASZVIGOM_FROM_LIST);
    check("a weight again", saszvigom_graph_set_weight(&graph, 3, 7, 1));
    check_line("refused: the weight of 3 and 7 is 0 or above 65520 (cause 4 at 21)", number, call);

    graph.adjacency[1 * 8 + 2] = 7;
    number = saszvigom_graph_pick(&graph, 0, 1);
    check_line("refused: row 1, column 2: the adjacency byte is 7, not 0 or 1 (cause 3)", number,
               call);
    graph.adjacency[1 * 8 + 2] = 1;
    check_line("refused: row 1, column 2: the adjacency byte is not 0 or 1 (cause 3)", number,
               call);
    number = saszvigom_graph_open(&graph);
    check_line("refused: row 1, column 2: the adjacency byte is 1, but that of row 2, column 1 is "
               "0 (cause 3)",
               number, call);
    check("the edge", saszvigom_graph_set_edge(&graph, 1, 2));
    check_line("refused: row 1, column 2: the adjacency byte differs from that of row 2, column 1 "
               "(cause 3)",
               number, call);
    graph.adjacency[2 * 8 + 2] = 7;
    check_line("refused: row 2, column 2: the adjacency byte is 7, not 0 or 1 (cause 3)",
               saszvigom_graph_automatic(&graph), call);
    graph.adjacency[2 * 8 + 2] = 1;
    number = saszvigom_graph_undo(&graph);
    check_line("refused: row 2, column 2: the adjacency byte is 1, but must be 0 on the diagonal "
               "(cause 3)",
               number, call);
    graph.n = 2;
    check_line("refused: row 2, column 2: the adjacency byte is not 0 on the diagonal (cause 3)",
               number, call);

    make_ring(96);
    graph.adjacency[3127] = 1; /* the index of document 02: 32 * 96 + 55 */
    check_line("refused: row 32, column 55: the adjacency byte is 1, but that of row 55, column 32 "
               "is 0 (cause 3)",
               saszvigom_graph_open(&graph), call);

    open_ring(6);
    check_line("opened: there is an inverse; verdict F: there is a perfect matching", 0x100, call);
    check_line("pair: 0 and 1, pairs made 1", saszvigom_graph_pick(&graph, 1, 0), call);
    check_line("refused: a vertex is matched already (cause 8)", saszvigom_graph_pick(&graph, 1, 2),
               call);
    check_line("replayed: all calls made, pairs made 1",
               saszvigom_graph_replay(&graph, NULL, 0, NULL, 0), SASZVIGOM_FROM_LIST);
    check_line("refused: the list ends within a call (cause 13 at 0)",
               saszvigom_graph_replay(&graph, NULL, 1, NULL, 0), SASZVIGOM_FROM_LIST);
    check_line("refused: the sheet ends within a record, or before its end record (cause 13 at 0)",
               saszvigom_graph_read(&graph, NULL, 0), SASZVIGOM_FROM_SHEET);
    check_line("refused: there is no line 'p edge N M' (cause 16 at 0)",
               saszvigom_graph_read_dimacs(&graph, NULL, 0, 0), SASZVIGOM_FROM_DIMACS);
    check_line("refused: a line is not just 'c ..', 'p edge N M' or 'e u v' and a line feed, or "
               "stands where it may not (cause 16 at line 2)",
               read_text("c\r\np edge 4 0\r\n"), SASZVIGOM_FROM_DIMACS);
    check_line("graph: vertices 4, edges 0", read_text("p edge 4 0\n"), SASZVIGOM_FROM_DIMACS);
    make_ring(3);
    check_line("singular: there is no inverse, first dependent column 2; verdict O: n is odd, "
               "there is no perfect matching",
               saszvigom_graph_open(&graph), call);
    make_ring(4);
    check("cleared", saszvigom_graph_clear_edge(&graph, 2, 3));
    check("cleared", saszvigom_graph_clear_edge(&graph, 3, 0));
    check_line("singular: there is no inverse, first dependent column 2; verdict U: undecided "
               "under these weights, others may have an inverse",
               saszvigom_graph_open(&graph), call);
    check("init of too many", !saszvigom_graph_init(&graph, UINT64_MAX));
    check_line("refused: there are more than 96 vertices (cause 1)", saszvigom_graph_open(&graph),
               call);
    check_line("refused: a weight is 0 or above 65520 (cause 4 at 0)", 4, call);
    check_line("refused: an adjacency byte is not 0 or 1, is not 0 on the diagonal, or differs "
               "from its mirror image (cause 3)",
               3, call);
}

/* Returns the verdict of the graph with the draws of a seed. */
static enum saszvigom_verdict drawn_verdict(uint32_t seed)
{
    saszvigom_graph_draw(&graph, seed);
    return saszvigom_verdict_of(saszvigom_graph_open(&graph), graph.n);
}

/* Matches every vertex with one that is adjacent to it; tells whether that
   succeeds. */
static bool matched_all(void)
{
    while (saszvigom_cause_of(saszvigom_graph_automatic(&graph)) == SASZVIGOM_NO_CAUSE)
        continue;
    for (uint64_t v = 0; v < graph.n; v++) {
        const uint64_t partner = saszvigom_graph_partner(&graph, v);
        if (!saszvigom_graph_adjacent(&graph, v, partner) ||
            saszvigom_graph_partner(&graph, partner) != v)
            return false;
    }
    return true;
}

/* Full comes with a perfect matching, odd with none whatever the seed, and
   undecided with one or with none. */
static void verdicts(void)
{
    bool odd = true, undecided = true;
    check("init of 0", saszvigom_graph_init(&graph, 0));
    check("verdict of 0", drawn_verdict(1) == SASZVIGOM_VERDICT_FULL && matched_all());
    check("init of 1", saszvigom_graph_init(&graph, 1));
    check("verdict of 1", drawn_verdict(1) == SASZVIGOM_VERDICT_ODD);
    check("init of 2", saszvigom_graph_init(&graph, 2));
    check("verdict of 2 without an edge", drawn_verdict(1) == SASZVIGOM_VERDICT_UNDECIDED);
    check("edge", saszvigom_graph_set_edge(&graph, 1, 0));
    check("verdict of an edge", drawn_verdict(1) == SASZVIGOM_VERDICT_FULL && matched_all());

    make_ring(4); /* 0 with 1 and 2 with 3 is a perfect matching */
    check("draws that cancel", drawn_verdict(247978) == SASZVIGOM_VERDICT_UNDECIDED);
    check("draws that do not", drawn_verdict(247979) == SASZVIGOM_VERDICT_FULL && matched_all());

    make_ring(5);
    for (uint32_t seed = 0; seed < 1000; seed++)
        odd = odd && drawn_verdict(seed) == SASZVIGOM_VERDICT_ODD;
    check("five vertices with any draws", odd);
    check("init of a star", saszvigom_graph_init(&graph, 4));
    for (uint64_t i = 1; i < 4; i++)
        check("edge of a star", saszvigom_graph_set_edge(&graph, 0, i));
    for (uint32_t seed = 0; seed < 1000; seed++)
        undecided = undecided && drawn_verdict(seed) == SASZVIGOM_VERDICT_UNDECIDED;
    check("a star with any draws", undecided);

    check("init of 3", saszvigom_graph_init(&graph, 3));
    check("no verdict without weights",
          saszvigom_verdict_of(saszvigom_graph_open(&graph), 3) == SASZVIGOM_NO_VERDICT);
    open_ring(6);
    check("no verdict of a pair",
          saszvigom_verdict_of(saszvigom_graph_automatic(&graph), 6) == SASZVIGOM_NO_VERDICT);
    check("no verdict of a refused pick",
          saszvigom_verdict_of(saszvigom_graph_pick(&graph, 0, 1), 6) == SASZVIGOM_NO_VERDICT);
}

/* The largest graph: all adjacent, matched to the end and undone, and the same
   by the entries of saszvigom.h with buffers of just the lengths needed. */
static void largest(void)
{
    check("init of 96", saszvigom_graph_init(&graph, 96));
    for (uint64_t i = 0; i < 96; i++)
        for (uint64_t j = 0; j < i; j++)
            if (!saszvigom_graph_set_edge(&graph, i, j))
                check("edge of the largest", false);
    check("no vertex 96", !saszvigom_graph_set_edge(&graph, 95, 96));
    check_number("draw for 96", saszvigom_graph_draw(&graph, 3), 0x11D00700);
    check_number("open of 96", saszvigom_graph_open(&graph), 0x100);
    before = graph;
    for (uint64_t made = 1; made <= 48; made++) {
        const uint64_t number = saszvigom_graph_automatic(&graph);
        const uint64_t same = saszvigom_automatic(
            96, made - 1, before.adjacency, sizeof before.adjacency, before.weights,
            sizeof before.weights, before.inverse, sizeof before.inverse, before.sequence,
            sizeof before.sequence);
        before.made = made;
        check_number("the number of the entry", number, same);
        check("the bytes of the entry", unchanged());
    }
    check_number("all matched", saszvigom_graph_automatic(&graph), 11);
    check_number("last undone", saszvigom_graph_undo(&graph),
                 0x2F00000300 | (uint64_t)before.sequence[95] << 24 |
                     (uint64_t)before.sequence[94] << 16);

    open_ring(96);
    check_number("last vertex", saszvigom_graph_pick(&graph, 95, 94), 0x15F5E0300);
    check("its partner", saszvigom_graph_partner(&graph, 95) == 94);
    check_number("row of the last", saszvigom_graph_row(&graph, 95), 8);
    check_number("row of the one before", saszvigom_graph_row(&graph, 93), 0x100000400);
    check("it has 92", saszvigom_graph_in_row(&graph, 92) && !saszvigom_graph_in_row(&graph, 96));
}

int main(void)
{
    sizes();
    edges();
    weights();
    sheets();
    dimacs();
    session();
    faulty();
    replays();
    explained();
    verdicts();
    largest();
    printf("%zu cases\n", cases);
    return 0;
}
