#include "session.h"

/* Takes the numbers of vertices and pairs from the graph after a call. */
static uint64_t keep(struct session *s, uint64_t number)
{
    s->n = (unsigned)s->graph.n;
    s->made = (unsigned)s->graph.made;
    return number;
}

static void open_graph(struct session *s)
{
    const uint64_t number = keep(s, saszvigom_graph_open(&s->graph));
    s->verdict = saszvigom_verdict_of(number, s->graph.n);
}

uint64_t session_read(struct session *s, const uint8_t *sheet, size_t length)
{
    const uint64_t number = saszvigom_graph_read(&s->graph, sheet, length);
    if (saszvigom_kind_of(number) == SASZVIGOM_SHEET) {
        s->edges = saszvigom_edges_of(number);
        /* In a sheet that is in order the seed stands after the size record. */
        s->seed = (uint32_t)sheet[3] | (uint32_t)sheet[4] << 8 | (uint32_t)sheet[5] << 16 |
                  (uint32_t)sheet[6] << 24;
        open_graph(s);
    }
    return number;
}

uint64_t session_read_text(struct session *s, const struct text *text, uint32_t seed)
{
    const uint64_t number =
        saszvigom_graph_read_dimacs(&s->graph, text->bytes, text->length, seed);
    if (saszvigom_kind_of(number) == SASZVIGOM_SHEET) {
        s->edges = saszvigom_edges_of(number);
        s->seed = seed;
        open_graph(s);
    }
    return number;
}

void session_redraw(struct session *s, uint32_t seed)
{
    saszvigom_graph_draw(&s->graph, seed);
    s->seed = seed;
    open_graph(s);
}

uint64_t session_pick(struct session *s, uint64_t a, uint64_t b)
{
    return keep(s, saszvigom_graph_pick(&s->graph, a, b));
}

uint64_t session_automatic(struct session *s)
{
    return keep(s, saszvigom_graph_automatic(&s->graph));
}

uint64_t session_undo(struct session *s)
{
    return keep(s, saszvigom_graph_undo(&s->graph));
}

uint64_t session_row(const struct session *s, uint64_t a, uint8_t row[MOST])
{
    const struct saszvigom_graph *const g = &s->graph;
    return saszvigom_row(g->n, g->made, a, g->adjacency, sizeof g->adjacency, g->weights,
                         sizeof g->weights, g->inverse, sizeof g->inverse, g->sequence,
                         sizeof g->sequence, row, MOST);
}

uint64_t session_replay(struct session *s, const uint64_t *calls, size_t numbers,
                        uint64_t *answers, size_t room)
{
    return keep(s, saszvigom_graph_replay(&s->graph, calls, numbers, answers, room));
}

int opened(const struct session *s)
{
    return s->verdict == SASZVIGOM_VERDICT_FULL;
}

int adjacent(const struct session *s, unsigned a, unsigned b)
{
    return saszvigom_graph_adjacent(&s->graph, a, b);
}

unsigned place_of(const struct session *s, unsigned a)
{
    for (unsigned i = 0; i < 2 * s->made; i++)
        if (s->graph.sequence[i] == a)
            return i;
    return SASZVIGOM_UNUSED;
}
