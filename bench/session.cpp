// Runs a call of the session through its C entry.
//
//   session once N GRAPH CALL    the call, for its instructions to be counted
//   session time N GRAPH CALL    its median processor time in microseconds
//
// GRAPH is dense or sparse, as for opening. CALL is one of
//
//   open        opening
//   refused     a pick of vertex 0 with itself, which is refused once the session is confirmed
//   confirmed   that pick on the session that undo is given
//   short       a pick with a sequence that is short by a byte
//   pick        the pick that an automatic pick would make
//   automatic   an automatic pick
//   undo        an undo of that pair
//   row         the row of vertex 0
//   run         opening, and automatic picks by single calls until all vertices are matched
//   replay      opening, and these picks by one replay
//
// Before the call the session is opened, and for undo, confirmed and short a pair is made, outside `measured`.
#include "graphs.h"

#include <cstdio>
#include <cstdlib>
#include <cstring>
#include <ctime>
#include <string>

namespace {

struct Session {
    Graph graph;
    Buffers buffers;
    uint64_t made = 0;

    explicit Session(const Graph &graph) : graph(graph), buffers(graph.n)
    {
    }

    uint64_t open()
    {
        made = 0;
        return open_by_entry(graph, buffers);
    }

    uint64_t keep(uint64_t number)
    {
        if (saszvigom_cause_of(number) == 0)
            made = saszvigom_made_of(number);
        return number;
    }

    uint64_t pick(uint64_t a, uint64_t b)
    {
        return keep(saszvigom_pick(graph.n, made, a, b, graph.adjacency.data(), graph.adjacency.size(), graph.weights.data(),
                                   graph.weights.size(), buffers.inverse.data(), buffers.inverse.size(), buffers.sequence.data(),
                                   buffers.sequence.size()));
    }

    uint64_t automatic()
    {
        return keep(saszvigom_automatic(graph.n, made, graph.adjacency.data(), graph.adjacency.size(), graph.weights.data(),
                                        graph.weights.size(), buffers.inverse.data(), buffers.inverse.size(),
                                        buffers.sequence.data(), buffers.sequence.size()));
    }

    uint64_t undo()
    {
        return keep(saszvigom_undo(graph.n, made, graph.adjacency.data(), graph.adjacency.size(), graph.weights.data(),
                                   graph.weights.size(), buffers.inverse.data(), buffers.inverse.size(), buffers.sequence.data(),
                                   buffers.sequence.size()));
    }

    uint64_t row(uint64_t a)
    {
        std::vector<uint8_t> bytes(graph.n);
        return saszvigom_row(graph.n, made, a, graph.adjacency.data(), graph.adjacency.size(), graph.weights.data(),
                             graph.weights.size(), buffers.inverse.data(), buffers.inverse.size(), buffers.sequence.data(),
                             buffers.sequence.size(), bytes.data(), bytes.size());
    }

    uint64_t replay(const std::vector<uint64_t> &calls, std::vector<uint64_t> &answers)
    {
        return keep(saszvigom_replay(graph.n, made, graph.adjacency.data(), graph.adjacency.size(), graph.weights.data(),
                                     graph.weights.size(), buffers.inverse.data(), buffers.inverse.size(), buffers.sequence.data(),
                                     buffers.sequence.size(), calls.data(), calls.size(), answers.data(), answers.size()));
    }
};

[[noreturn]] void fail(const char *what)
{
    std::fprintf(stderr, "%s\n", what);
    std::exit(1);
}

// Checks that the answer is of this kind, or refused with this cause.
void expect(uint64_t number, unsigned kind, unsigned cause)
{
    if (saszvigom_kind_of(number) != kind || saszvigom_cause_of(number) != cause)
        fail("an answer is not the one expected");
}

double microseconds()
{
    timespec now;
    clock_gettime(CLOCK_PROCESS_CPUTIME_ID, &now);
    return 1e6 * static_cast<double>(now.tv_sec) + 1e-3 * static_cast<double>(now.tv_nsec);
}

} // namespace

// Makes the call whose instructions are counted.
extern "C" __attribute__((noinline)) void measured(Session &session, const std::string &call, uint64_t a, uint64_t b)
{
    const size_t pairs = session.graph.n / 2;
    if (call == "open")
        expect(session.open(), SASZVIGOM_OPENED, 0);
    else if (call == "refused" || call == "confirmed")
        expect(session.pick(0, 0), SASZVIGOM_REFUSED, 7);
    else if (call == "pick")
        expect(session.pick(a, b), SASZVIGOM_PAIR, 0);
    else if (call == "automatic")
        expect(session.automatic(), SASZVIGOM_PAIR, 0);
    else if (call == "undo")
        expect(session.undo(), SASZVIGOM_PAIR, 0);
    else if (call == "short")
        expect(session.pick(a, b), SASZVIGOM_REFUSED, 2);
    else if (call == "row")
        expect(session.row(0), SASZVIGOM_ROW, 0);
    else if (call == "run") {
        expect(session.open(), SASZVIGOM_OPENED, 0);
        for (size_t k = 0; k < pairs; k++)
            expect(session.automatic(), SASZVIGOM_PAIR, 0);
    } else if (call == "replay") {
        expect(session.open(), SASZVIGOM_OPENED, 0);
        std::vector<uint64_t> calls(3 * pairs), answers(pairs);
        for (size_t k = 0; k < pairs; k++)
            calls[3 * k] = SASZVIGOM_CALL_AUTOMATIC;
        expect(session.replay(calls, answers), SASZVIGOM_REPLAYED, 0);
        if (session.made != pairs)
            fail("the replay did not match all vertices");
    } else
        fail("no such call");
}

int main(int argc, char **argv)
{
    if (argc != 5)
        fail("usage: session once|time N GRAPH CALL");
    const bool timed = std::string(argv[1]) == "time";
    const size_t n = static_cast<size_t>(std::atoi(argv[2]));
    const std::string call = argv[4];
    Session session(std::string(argv[3]) == "dense" ? dense(n) : sparse(n));
    expect(session.open(), SASZVIGOM_OPENED, 0);
    const uint64_t pair = session.automatic();
    if (call == "short")
        session.buffers.sequence.pop_back();
    else if (call != "undo" && call != "confirmed")
        expect(session.undo(), SASZVIGOM_PAIR, 0);
    const Session before = session;
    std::vector<double> times;
    for (int round = 0; round < (timed ? 301 : 1); round++) {
        session = before;
        const double start = microseconds();
        measured(session, call, saszvigom_smaller_of(pair), saszvigom_larger_of(pair));
        times.push_back(microseconds() - start);
    }
    if (timed) {
        std::nth_element(times.begin(), times.begin() + 150, times.end());
        std::printf("%.1f\n", times[150]);
    }
}
