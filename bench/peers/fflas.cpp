#include "../peer.h"

#include <fflas-ffpack/fflas-ffpack-config.h>
#include <fflas-ffpack/ffpack/ffpack.h>
#include <givaro/modular.h>

namespace {

// FFPACK::Invert of version 2.5.0 goes by rows and gives a wrong inverse if a pivot is off the diagonal, as it always is for a skew matrix.
// This class does the same by columns, at the same speed.
class Matrix : public Peer {
public:
    Matrix(size_t n, const std::vector<uint16_t> &entries)
        : n(n), matrix(entries.begin(), entries.end()), inverse(n * n), permutation(n), pivots(n)
    {
    }

    bool invert() override
    {
        inverse = matrix;
        const size_t rank = FFPACK::ReducedColumnEchelonForm(field, n, n, inverse.data(), n, permutation.data(), pivots.data(), true,
                                                             FFPACK::FfpackGaussJordanTile);
        FFPACK::applyP(field, FFLAS::FflasLeft, FFLAS::FflasTrans, n, 0, static_cast<int>(rank), inverse.data(), n,
                       permutation.data());
        return rank == n;
    }

    uint16_t entry(size_t i, size_t j) const override
    {
        return static_cast<uint16_t>(inverse[i * n + j]);
    }

private:
    const Givaro::Modular<double> field{65521};
    const size_t n;
    const std::vector<double> matrix;
    std::vector<double> inverse;
    std::vector<size_t> permutation, pivots;
};

const Linked<Matrix> linked("FFLAS", __FFLASFFPACK_VERSION);

} // namespace
