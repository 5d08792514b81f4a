// Measures the confirmation of a session beside FLINT's product of two matrices of its size, in one run.
//
//   product    the median times in microseconds at n = 96 dense, and the median ratio of single rounds
#include "graphs.h"

#include <flint/nmod_mat.h>

#include <cstdio>
#include <cstdlib>
#include <ctime>

namespace {

double microseconds()
{
    timespec now;
    clock_gettime(CLOCK_PROCESS_CPUTIME_ID, &now);
    return 1e6 * static_cast<double>(now.tv_sec) + 1e-3 * static_cast<double>(now.tv_nsec);
}

double median(std::vector<double> values)
{
    std::nth_element(values.begin(), values.begin() + values.size() / 2, values.end());
    return values[values.size() / 2];
}

} // namespace

int main()
{
    const Graph graph = dense(96);
    Buffers buffers(graph.n);
    if (saszvigom_kind_of(open_by_entry(graph, buffers)) != SASZVIGOM_OPENED)
        return 1;
    nmod_mat_t a, b, c;
    nmod_mat_init(a, graph.n, graph.n, SASZVIGOM_MODULUS);
    nmod_mat_init(b, graph.n, graph.n, SASZVIGOM_MODULUS);
    nmod_mat_init(c, graph.n, graph.n, SASZVIGOM_MODULUS);
    const std::vector<uint16_t> matrix = graph.tutte_matrix();
    for (size_t i = 0; i < graph.n; i++)
        for (size_t j = 0; j < graph.n; j++) {
            nmod_mat_entry(a, i, j) = matrix[i * graph.n + j];
            nmod_mat_entry(b, i, j) = saszvigom_word(buffers.inverse.data(), i * graph.n + j);
        }
    std::vector<double> confirmations, products, ratios;
    for (int round = 0; round < 501; round++) {
        const double start = microseconds();
        const uint64_t number =
            saszvigom_pick(graph.n, 0, 0, 0, graph.adjacency.data(), graph.adjacency.size(), graph.weights.data(), graph.weights.size(),
                           buffers.inverse.data(), buffers.inverse.size(), buffers.sequence.data(), buffers.sequence.size());
        const double middle = microseconds();
        nmod_mat_mul(c, a, b);
        const double end = microseconds();
        if (saszvigom_cause_of(number) != 7 || !nmod_mat_is_one(c))
            return 1;
        confirmations.push_back(middle - start);
        products.push_back(end - middle);
        ratios.push_back((middle - start) / (end - middle));
    }
    std::printf("confirmation %.1f, FLINT's product %.1f, ratio %.2f, at most 0.5: %s\n", median(confirmations), median(products), median(ratios),
                median(ratios) <= 0.5 ? "met" : "missed");
}
