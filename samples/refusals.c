/*
 * Every refusal, each explained in one line.
 *
 *     cc refusals.c $(pkg-config --cflags --libs saszvigom) -o refusals
 */
#include "saszvigom_graph.h"

#include <stdio.h>
#include <string.h>

static struct saszvigom_graph graph; /* large, so not on the stack */

static void say_from(const char *what, uint64_t number, enum saszvigom_from from)
{
    char line[SASZVIGOM_LINE_BYTES];
    saszvigom_graph_explain(line, sizeof line, number, &graph, from);
    printf("%s:\n    %s\n", what, line);
}

static void say(const char *what, uint64_t number)
{
    say_from(what, number, SASZVIGOM_FROM_CALL);
}

/* Makes a path 2 0 1 3 with drawn weights. */
static void make_path(void)
{
    saszvigom_graph_init(&graph, 4);
    saszvigom_graph_set_edge(&graph, 0, 1);
    saszvigom_graph_set_edge(&graph, 0, 2);
    saszvigom_graph_set_edge(&graph, 1, 3);
    saszvigom_graph_draw(&graph, 1);
}

/* 1 to 4: a size, a length or a graph that is not in order. */
static void of_the_graph(void)
{
    uint8_t weights[11]; /* six weights need twelve bytes */
    saszvigom_graph_init(&graph, 97);
    say("open 97 vertices", saszvigom_graph_open(&graph));

    make_path();
    say("draw into too little room", saszvigom_draws(graph.n, 1, weights, sizeof weights));

    graph.adjacency[2 * 4 + 3] = 1; /* by hand; saszvigom_graph_set_edge sets both bytes */
    say("open with an edge in one direction", saszvigom_graph_open(&graph));
    graph.adjacency[1 * 4 + 1] = 1; /* row 1 comes before row 2 */
    say("and with an edge of 1 and itself", saszvigom_graph_open(&graph));
    graph.adjacency[0 * 4 + 3] = 7;
    say("and with a byte of 7", saszvigom_graph_open(&graph));

    saszvigom_graph_init(&graph, 4);
    say("open before weights are drawn", saszvigom_graph_open(&graph));
}

/* 5 and 6: a session that does not fit the graph. */
static void of_the_session(void)
{
    make_path();
    graph.made = 1; /* by hand; the calls keep it */
    say("automatic with a pair too many", saszvigom_graph_automatic(&graph));

    make_path();
    say("pick before the graph is opened", saszvigom_graph_pick(&graph, 0, 2));
}

/* 7 to 11: a call that cannot be carried out. The session is as it was. */
static void of_the_call(void)
{
    make_path();
    saszvigom_graph_open(&graph);
    saszvigom_graph_pick(&graph, 0, 2);
    say("pick 1 and 4", saszvigom_graph_pick(&graph, 1, 4));
    say("pick 1 and 0, which is matched with 2", saszvigom_graph_pick(&graph, 1, 0));
    saszvigom_graph_undo(&graph);
    say("pick 2 and 3", saszvigom_graph_pick(&graph, 2, 3));
    say("pick 0 and 1, which leaves 2 and 3", saszvigom_graph_pick(&graph, 0, 1));
    say("undo once more", saszvigom_graph_undo(&graph));
}

/* 2, 12 and 13 of a list: no call of it is made. */
static void of_the_list(void)
{
    const uint64_t calls[] = {SASZVIGOM_CALL_AUTOMATIC, 0, 0, 9, 0, 0};
    uint64_t answers[2];
    say_from("replay two calls with room for one answer",
             saszvigom_graph_replay(&graph, calls, 6, answers, 1), SASZVIGOM_FROM_LIST);
    say_from("replay a call of kind 9", saszvigom_graph_replay(&graph, calls, 6, answers, 2),
             SASZVIGOM_FROM_LIST);
    say_from("replay a call and a third", saszvigom_graph_replay(&graph, calls, 4, answers, 2),
             SASZVIGOM_FROM_LIST);
}

/* 12 to 15 of a sheet: the graph is as it was. */
static void of_the_sheet(void)
{
    const uint8_t no_seed[] = {1, 4, 2, 0, 1, 4};
    const uint8_t no_end[] = {1, 4, 3, 0, 0, 0, 0, 2, 0, 1};
    const uint8_t no_such_vertex[] = {1, 4, 3, 0, 0, 0, 0, 2, 0, 4, 4};
    const uint8_t twice[] = {1, 4, 3, 0, 0, 0, 0, 2, 0, 1, 2, 1, 0, 4};
    say_from("read a sheet without a seed", saszvigom_graph_read(&graph, no_seed, sizeof no_seed),
             SASZVIGOM_FROM_SHEET);
    say_from("read a sheet without an end", saszvigom_graph_read(&graph, no_end, sizeof no_end),
             SASZVIGOM_FROM_SHEET);
    say_from("read an edge of vertex 4 of four",
             saszvigom_graph_read(&graph, no_such_vertex, sizeof no_such_vertex),
             SASZVIGOM_FROM_SHEET);
    say_from("read an edge twice", saszvigom_graph_read(&graph, twice, sizeof twice),
             SASZVIGOM_FROM_SHEET);
}

static void say_text(const char *what, const char *text)
{
    say_from(what, saszvigom_graph_read_dimacs(&graph, text, strlen(text), 1),
             SASZVIGOM_FROM_DIMACS);
}

/* 1, 14, 16 and 17 of a text: the graph is as it was. */
static void of_the_text(void)
{
    say_text("read a text of 97 vertices", "c too large\np edge 97 0\n");
    say_text("read an edge of vertex 0", "p edge 4 2\ne 1 2\ne 0 1\n");
    say_text("read a text with Windows line ends", "p edge 4 1\r\ne 1 2\r\n");
    say_text("read a text of comments", "c p edge 4 1\nc e 1 2\n");
    say_text("read one edge of two", "p edge 4 2\ne 1 2\n");
}

int main(void)
{
    of_the_graph();
    of_the_session();
    of_the_call();
    of_the_list();
    of_the_sheet();
    of_the_text();
    say("and the session goes on: automatic", saszvigom_graph_automatic(&graph));
    return 0;
}
