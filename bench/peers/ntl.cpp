#include "../peer.h"

#include <NTL/mat_lzz_p.h>
#include <NTL/version.h>

namespace {

class Matrix : public Peer {
public:
    Matrix(size_t n, const std::vector<uint16_t> &entries)
    {
        NTL::zz_p::init(65521);
        matrix.SetDims(static_cast<long>(n), static_cast<long>(n));
        for (size_t i = 0; i < n * n; i++)
            matrix[static_cast<long>(i / n)][static_cast<long>(i % n)] = entries[i];
    }

    bool invert() override
    {
        NTL::zz_p determinant;
        NTL::inv(determinant, inverse, matrix);
        return determinant != 0;
    }

    uint16_t entry(size_t i, size_t j) const override
    {
        return static_cast<uint16_t>(NTL::rep(inverse[static_cast<long>(i)][static_cast<long>(j)]));
    }

private:
    NTL::mat_zz_p matrix, inverse;
};

const Linked<Matrix> linked("NTL", NTL_VERSION);

} // namespace
