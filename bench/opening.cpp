// Measures opening through the C entry.
//
//   opening peers            which libraries it is compared with
//   opening times            a table of times, beside the reference and the peers
//   opening once N dense     one call on a graph of N vertices that are all adjacent; 97 are refused
//   opening once N sparse    one call on a graph of N vertices with about four neighbours each
//   opening once N short     the call of a dense graph with the last buffer short by a byte
#include "graphs.h"
#include "peer.h"
#include "saszvigom.h"

#include <algorithm>
#include <cstdio>
#include <cstdlib>
#include <cstring>
#include <ctime>
#include <functional>
#include <string>
#include <vector>

// A buffer as the reference takes it.
struct Buffer {
    uint8_t *bytes;
    size_t length;
};

// Opens a graph by the reference: the six buffers of saszvigom_open, in its order; the first two are only read.
extern "C" uint64_t reference_open(uint64_t n, const Buffer *buffers);

namespace {

Buffer buffer_of(const std::vector<uint8_t> &bytes)
{
    return {const_cast<uint8_t *>(bytes.data()), bytes.size()};
}

uint64_t open_by_reference(const Graph &graph, Buffers &buffers)
{
    const Buffer six[] = {buffer_of(graph.adjacency),  buffer_of(graph.weights),   buffer_of(buffers.inverse),
                          buffer_of(buffers.sequence), buffer_of(buffers.witness), buffer_of(buffers.work)};
    return reference_open(graph.n, six);
}

// Returns the processor time of one call, in microseconds.
double time_of(const std::function<void()> &action)
{
    timespec start, end;
    clock_gettime(CLOCK_THREAD_CPUTIME_ID, &start);
    action();
    clock_gettime(CLOCK_THREAD_CPUTIME_ID, &end);
    return 1e6 * static_cast<double>(end.tv_sec - start.tv_sec) + 1e-3 * static_cast<double>(end.tv_nsec - start.tv_nsec);
}

double median(std::vector<double> times)
{
    const auto middle = times.begin() + static_cast<std::ptrdiff_t>(times.size() / 2);
    std::nth_element(times.begin(), middle, times.end());
    return *middle;
}

[[noreturn]] void differ(size_t n, const char *kind, const char *what)
{
    std::printf("n = %zu %s: the entry and the %s differ\n", n, kind, what);
    std::exit(1);
}

const char *answer_of(uint64_t number)
{
    switch (saszvigom_kind_of(number)) {
    case SASZVIGOM_OPENED:
        return "opened";
    case SASZVIGOM_SINGULAR:
        return "singular";
    default:
        return "refused";
    }
}

void print_call(size_t n, const char *kind, uint64_t number)
{
    std::printf("%4zu  %-6s  %-8s", n, kind, answer_of(number));
}

// Checks that the answers are the same, before any time is taken.
void compare(const Graph &graph, const char *kind, const std::vector<std::unique_ptr<Peer>> &peers)
{
    const size_t n = graph.n;
    Buffers entry(n), reference(n);
    const uint64_t number = open_by_entry(graph, entry);
    if (number != open_by_reference(graph, reference) || !(entry == reference))
        differ(n, kind, "reference");
    const bool opened = saszvigom_kind_of(number) == SASZVIGOM_OPENED;
    for (size_t p = 0; p < peers.size(); p++) {
        bool same = peers[p]->invert() == opened;
        for (size_t i = 0; same && opened && i < n * n; i++)
            same = saszvigom_word(entry.inverse.data(), i) == peers[p]->entry(i / n, i % n);
        if (!same)
            differ(n, kind, libraries()[p].name.c_str());
    }
}

// Returns the median of the ratios of times of the same round.
double median_ratio(const std::vector<double> &times, const std::vector<double> &others)
{
    std::vector<double> ratios;
    for (size_t round = 0; round < times.size(); round++)
        ratios.push_back(times[round] / others[round]);
    return median(ratios);
}

// Prints medians over rounds that call each in turn.
void measure(const Graph &graph, const char *kind)
{
    const size_t n = graph.n;
    const size_t rounds = 501;
    std::vector<std::unique_ptr<Peer>> peers;
    for (const Library &library : libraries())
        peers.push_back(library.take(n, graph.tutte_matrix()));
    compare(graph, kind, peers);
    Buffers buffers(n);
    uint64_t number = 0;
    // Of the entry; of the reference and then of each peer.
    std::vector<double> times;
    std::vector<std::vector<double>> others(1 + peers.size());
    for (size_t round = 0; round < rounds; round++) {
        times.push_back(time_of([&] { number = open_by_entry(graph, buffers); }));
        others[0].push_back(time_of([&] { open_by_reference(graph, buffers); }));
        for (size_t p = 0; p < peers.size(); p++)
            others[1 + p].push_back(time_of([&] { peers[p]->invert(); }));
    }
    print_call(n, kind, number);
    std::printf("  %9.1f", median(times));
    for (const std::vector<double> &other : others)
        std::printf("  %9.1f  %11.2f", median(other), median_ratio(times, other));
    std::printf("\n");
    std::fflush(stdout);
}

void print_times()
{
    std::vector<std::string> others = {"reference"};
    for (const Library &library : libraries())
        others.push_back(library.name);
    std::printf("%4s  %-6s  %-8s  %9s", "n", "graph", "answer", "entry");
    for (const std::string &other : others)
        std::printf("  %9s  %11s", other.c_str(), ("e/" + other).c_str());
    std::printf("\n");
    for (const size_t n : {16, 32, 48, 64, 95, 96}) {
        measure(dense(n), "dense");
        measure(sparse(n), "sparse");
    }
}

void print_peers()
{
    std::printf("Peers:");
    for (const Library &library : libraries())
        std::printf(" %s %s", library.name.c_str(), library.version.c_str());
    std::printf("%s\n", libraries().empty() ? " none" : "");
}

// Makes one call; returns false if its cause is not the expected one.
bool call_once(size_t n, const std::string &kind)
{
    const Graph graph = kind == "sparse" ? sparse(n) : dense(n);
    Buffers buffers(n);
    if (kind == "short")
        buffers.work.pop_back();
    const unsigned cause = n > SASZVIGOM_MAX_VERTICES ? SASZVIGOM_SIZE_TOO_LARGE
                           : kind == "short"          ? SASZVIGOM_BUFFER_TOO_SHORT
                                                      : SASZVIGOM_NO_CAUSE;
    const uint64_t number = open_by_entry(graph, buffers);
    print_call(n, kind.c_str(), number);
    return saszvigom_cause_of(number) == cause;
}

} // namespace

int main(int argc, char **argv)
{
    if (argc == 2 && std::strcmp(argv[1], "peers") == 0) {
        print_peers();
        return 0;
    }
    if (argc == 2 && std::strcmp(argv[1], "times") == 0) {
        print_times();
        return 0;
    }
    if (argc == 4 && std::strcmp(argv[1], "once") == 0) {
        const size_t n = std::strtoul(argv[2], nullptr, 10);
        const std::string kind = argv[3];
        // Fewer than five vertices do not have 2n edges.
        if (n >= 5 && n <= SASZVIGOM_MAX_VERTICES + 1 && (kind == "dense" || kind == "sparse" || kind == "short"))
            return call_once(n, kind) ? 0 : 1;
    }
    std::fprintf(stderr, "usage: opening peers | opening times | opening once N dense|sparse|short\n");
    return 2;
}
