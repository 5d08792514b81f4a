/*
 * A session from C++, over what is installed alone: the struct, the entries with
 * vectors, and empty vectors, whose data may be null. Stops with status 1 at the
 * first difference.
 */
#include <saszvigom_graph.h>

#include <cstdio>
#include <cstdlib>
#include <memory>
#include <string>
#include <vector>

namespace {

using bytes = std::vector<uint8_t>;

std::string explained(uint64_t number, uint64_t n, saszvigom_from from = SASZVIGOM_FROM_CALL)
{
    char line[SASZVIGOM_LINE_BYTES];
    saszvigom_explain(line, sizeof line, number, n, from);
    return line;
}

std::string explained(uint64_t number, const saszvigom_graph *graph)
{
    char line[SASZVIGOM_LINE_BYTES];
    saszvigom_graph_explain(line, sizeof line, number, graph, SASZVIGOM_FROM_CALL);
    return line;
}

void check(const char *what, bool holds)
{
    if (!holds) {
        std::printf("differs: %s\n", what);
        std::exit(1);
    }
}

bool carried_out(uint64_t number)
{
    return saszvigom_cause_of(number) == SASZVIGOM_NO_CAUSE;
}

/* Returns how a graph opened; leaves no enumerator out. */
const char *opening(uint64_t number)
{
    switch (saszvigom_kind_of(number)) {
    case SASZVIGOM_OPENED:
        return "opened";
    case SASZVIGOM_SINGULAR:
        return "singular";
    case SASZVIGOM_REFUSED:
        return saszvigom_cause_text(saszvigom_cause_of(number), SASZVIGOM_FROM_CALL);
    case SASZVIGOM_PAIR:
    case SASZVIGOM_ROW:
    case SASZVIGOM_REPLAYED:
    case SASZVIGOM_SHEET:
    case SASZVIGOM_DRAWS:
        break;
    }
    return "no opening";
}

/* Returns the letter of a verdict, or '-' if there is none; leaves no enumerator
   out. */
char letter(uint64_t number, uint64_t n)
{
    const saszvigom_verdict verdict = saszvigom_verdict_of(number, n);
    switch (verdict) {
    case SASZVIGOM_VERDICT_FULL:
    case SASZVIGOM_VERDICT_ODD:
    case SASZVIGOM_VERDICT_UNDECIDED:
        return static_cast<char>(verdict);
    case SASZVIGOM_NO_VERDICT:
        break;
    }
    return '-';
}

void verdicts()
{
    const std::unique_ptr<saszvigom_graph> owner(new saszvigom_graph);
    saszvigom_graph *const graph = owner.get();
    for (unsigned n = 0; n <= SASZVIGOM_MAX_VERTICES; n++) {
        saszvigom_graph_init(graph, n);
        saszvigom_graph_draw(graph, 1);
        const uint64_t bare = saszvigom_graph_open(graph);
        for (unsigned i = 1; i < n; i++)
            saszvigom_graph_set_edge(graph, i, i - 1);
        const uint64_t path = saszvigom_graph_open(graph);
        check("verdict without edges", letter(bare, n) == (n == 0 ? 'F' : n % 2 == 1 ? 'O' : 'U'));
        check("verdict of a path", letter(path, n) == (n % 2 == 1 ? 'O' : 'F'));
        check("no verdict of a refusal", letter(bare | SASZVIGOM_WEIGHT_OUT_OF_RANGE, n) == '-');
        check("no verdict of an automatic pick",
              letter(saszvigom_graph_automatic(graph), n) == '-');
    }
    const uint64_t largest = UINT64_MAX, half = largest / 2 + 1;
    check("verdicts of large sizes", letter(0x20200, largest) == 'O' &&
                                         letter(0x20200, half) == 'U' &&
                                         letter(0x100, largest) == 'F' && letter(largest, 1) == '-');
    check("a verdict explained",
          explained(0x20200, 4) == "singular: there is no inverse, first dependent column 2; "
                                   "verdict U: undecided under these weights, others may have an "
                                   "inverse");
}

void with_struct()
{
    const std::unique_ptr<saszvigom_graph> owner(new saszvigom_graph);
    saszvigom_graph *const graph = owner.get();
    check("init", saszvigom_graph_init(graph, 6));
    for (unsigned i = 0; i < 6; i++)
        check("edge", saszvigom_graph_set_edge(graph, i, (i + 1) % 6));
    check("no weights",
          std::string(opening(saszvigom_graph_open(graph))) == "a weight is 0 or above 65520");
    check("no weights, explained", explained(saszvigom_graph_open(graph), graph) ==
                                       "refused: the weight of 0 and 1 is 0 (cause 4 at 0)");
    check("draw", saszvigom_graph_draw(graph, 1) == 0xF0700);
    check("open", std::string(opening(saszvigom_graph_open(graph))) == "opened");

    const std::vector<uint64_t> none;
    std::vector<uint64_t> answers;
    const bytes no_sheet;
    check("empty list", saszvigom_graph_replay(graph, none.data(), none.size(), answers.data(),
                                               answers.size()) == 0x500);
    check("empty sheet", explained(saszvigom_graph_read(graph, no_sheet.data(), no_sheet.size()), 0,
                                   SASZVIGOM_FROM_SHEET) ==
                             "refused: the sheet ends within a record, or before its end record "
                             "(cause 13 at 0)");
    check("empty text",
          explained(saszvigom_graph_read_dimacs(graph, no_sheet.data(), no_sheet.size(), 1), 0,
                    SASZVIGOM_FROM_DIMACS) ==
              "refused: there is no line 'p edge N M' (cause 16 at 0)");

    check("row", carried_out(saszvigom_graph_row(graph, 0)));
    check("partners", saszvigom_graph_in_row(graph, 5) && !saszvigom_graph_in_row(graph, 2));
    check("pick", explained(saszvigom_graph_pick(graph, 5, 0), 6) == "pair: 0 and 5, pairs made 1");
    check("matched",
          saszvigom_cause_of(saszvigom_graph_pick(graph, 5, 4)) == SASZVIGOM_VERTEX_MATCHED);
    check("undo", saszvigom_made_of(saszvigom_graph_undo(graph)) == 0);
    while (carried_out(saszvigom_graph_automatic(graph)))
        continue;
    check("all matched", graph->made == 3 && saszvigom_graph_partner(graph, 0) == 1);

    const std::string text = "c two\np edge 2 1\ne 2 1\n", cut = text + "c";
    const uint64_t number = saszvigom_graph_read_dimacs(graph, cut.data(), cut.size(), 1);
    check("a text that is cut", saszvigom_cause_of(number) == SASZVIGOM_LINE_INVALID &&
                                    saszvigom_line_of(number) == 4 && graph->made == 3);
    check("a text", explained(saszvigom_graph_read_dimacs(graph, text.data(), text.size(), 1), 0,
                              SASZVIGOM_FROM_DIMACS) == "graph: vertices 2, edges 1");
    check("open a text", std::string(opening(saszvigom_graph_open(graph))) == "opened");
}

void with_vectors()
{
    const uint64_t n = 2;
    const bytes adjacency{0, 1, 1, 0};
    bytes weights(SASZVIGOM_WEIGHTS_BYTES(n)), inverse(SASZVIGOM_INVERSE_BYTES(n));
    bytes sequence(SASZVIGOM_SEQUENCE_BYTES(n)), witness(SASZVIGOM_WITNESS_BYTES(n));
    bytes work(SASZVIGOM_WORK_BYTES(n));
    check("no word", !saszvigom_store_word(weights.data(), saszvigom_weight_index(n, 1, 0), 65537));
    check("a word", saszvigom_store_word(weights.data(), saszvigom_weight_index(n, 1, 0), 2));
    check("open", saszvigom_open(n, adjacency.data(), adjacency.size(), weights.data(),
                                 weights.size(), inverse.data(), inverse.size(), sequence.data(),
                                 sequence.size(), witness.data(), witness.size(), work.data(),
                                 work.size()) == 0x100);
    check("inverse", saszvigom_word(inverse.data(), 1) == 32760);
    const uint64_t number = saszvigom_automatic(
        n, 0, adjacency.data(), adjacency.size(), weights.data(), weights.size(), inverse.data(),
        inverse.size(), sequence.data(), sequence.size() - 1);
    check("short", saszvigom_buffer_of(number) == SASZVIGOM_BUFFER_SEQUENCE);

    const bytes one_way{0, 1, 0, 0}, none;
    const uint64_t refused = saszvigom_automatic(
        n, 0, one_way.data(), one_way.size(), weights.data(), weights.size(), inverse.data(),
        inverse.size(), sequence.data(), sequence.size());
    check("an edge in one direction",
          refused == 0x301000003 && saszvigom_fault_row(refused, n) == 0 &&
              saszvigom_fault_column(refused, n) == 1 &&
              saszvigom_fault_of(refused, n, none.data(), none.size()) == SASZVIGOM_FAULT_MIRROR);
    check("explained", explained(refused, n) == "refused: row 0, column 1: the adjacency byte "
                                                "differs from that of row 1, column 0 (cause 3)");
}

} // namespace

int main()
{
    check("version", saszvigom_version() == SASZVIGOM_VERSION_NUMBER);
    verdicts();
    with_struct();
    with_vectors();
    std::printf("passed\n");
    return 0;
}
