// The graphs that are measured, and the buffers of a call.
#ifndef GRAPHS_H
#define GRAPHS_H

#include "saszvigom.h"

#include <algorithm>
#include <vector>

namespace {

// SplitMix64.
class Random {
public:
    explicit Random(uint64_t seed) : state(seed)
    {
    }

    size_t below(size_t bound)
    {
        state += 0x9E3779B97F4A7C15u;
        uint64_t mixed = state;
        mixed = (mixed ^ (mixed >> 30)) * 0xBF58476D1CE4E5B9u;
        mixed = (mixed ^ (mixed >> 27)) * 0x94D049BB133111EBu;
        return static_cast<size_t>((mixed ^ (mixed >> 31)) % bound);
    }

private:
    uint64_t state;
};

struct Graph {
    size_t n;
    std::vector<uint8_t> adjacency, weights;

    explicit Graph(size_t n)
        : n(n), adjacency(SASZVIGOM_ADJACENCY_BYTES(n)), weights(SASZVIGOM_WEIGHTS_BYTES(n))
    {
        Random random(n);
        for (size_t k = 0; k < n * (n - 1) / 2; k++)
            saszvigom_store_word(weights.data(), k, static_cast<uint16_t>(1 + random.below(65520)));
    }

    bool link(size_t i, size_t j)
    {
        if (i == j || adjacency[i * n + j] == 1)
            return false;
        adjacency[i * n + j] = adjacency[j * n + i] = 1;
        return true;
    }

    // Returns the Tutte matrix, row by row.
    std::vector<uint16_t> tutte_matrix() const
    {
        std::vector<uint16_t> matrix(n * n);
        for (size_t i = 0; i < n; i++)
            for (size_t j = i + 1; j < n; j++)
                if (adjacency[i * n + j] == 1) {
                    const uint16_t weight = saszvigom_word(weights.data(), saszvigom_weight_index(n, i, j));
                    matrix[i * n + j] = weight;
                    matrix[j * n + i] = static_cast<uint16_t>(SASZVIGOM_MODULUS - weight);
                }
        return matrix;
    }
};

inline Graph dense(size_t n)
{
    Graph graph(n);
    for (size_t i = 0; i < n; i++)
        for (size_t j = 0; j < i; j++)
            graph.link(i, j);
    return graph;
}

// Makes a matching of random vertices, with one left over for odd n, and random edges up to 2n in all.
inline Graph sparse(size_t n)
{
    Graph graph(n);
    Random random(1000 + n);
    std::vector<size_t> order(n);
    for (size_t i = 0; i < n; i++)
        order[i] = i;
    for (size_t i = n - 1; i > 0; i--)
        std::swap(order[i], order[random.below(i + 1)]);
    size_t edges = 0;
    for (size_t i = 0; i + 1 < n; i += 2)
        edges += graph.link(order[i], order[i + 1]);
    while (edges < std::min(2 * n, n * (n - 1) / 2))
        edges += graph.link(random.below(n), random.below(n));
    return graph;
}

struct Buffers {
    std::vector<uint8_t> inverse, sequence, witness, work;

    explicit Buffers(size_t n)
        : inverse(SASZVIGOM_INVERSE_BYTES(n)), sequence(SASZVIGOM_SEQUENCE_BYTES(n)), witness(SASZVIGOM_WITNESS_BYTES(n)),
          work(SASZVIGOM_WORK_BYTES(n))
    {
    }

    bool operator==(const Buffers &other) const
    {
        return inverse == other.inverse && sequence == other.sequence && witness == other.witness && work == other.work;
    }
};

inline uint64_t open_by_entry(const Graph &graph, Buffers &buffers)
{
    return saszvigom_open(graph.n, graph.adjacency.data(), graph.adjacency.size(), graph.weights.data(), graph.weights.size(),
                          buffers.inverse.data(), buffers.inverse.size(), buffers.sequence.data(), buffers.sequence.size(),
                          buffers.witness.data(), buffers.witness.size(), buffers.work.data(), buffers.work.size());
}

} // namespace

#endif
