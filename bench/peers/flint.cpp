#include "../peer.h"

#include <flint/nmod_mat.h>

namespace {

class Matrix : public Peer {
public:
    Matrix(size_t n, const std::vector<uint16_t> &entries)
    {
        const slong size = static_cast<slong>(n);
        nmod_mat_init(matrix, size, size, 65521);
        nmod_mat_init(inverse, size, size, 65521);
        for (size_t i = 0; i < n * n; i++)
            nmod_mat_entry(matrix, static_cast<slong>(i / n), static_cast<slong>(i % n)) = entries[i];
    }

    ~Matrix() override
    {
        nmod_mat_clear(matrix);
        nmod_mat_clear(inverse);
    }

    Matrix(const Matrix &) = delete;
    Matrix &operator=(const Matrix &) = delete;

    bool invert() override
    {
        return nmod_mat_inv(inverse, matrix) != 0;
    }

    uint16_t entry(size_t i, size_t j) const override
    {
        return static_cast<uint16_t>(nmod_mat_entry(inverse, static_cast<slong>(i), static_cast<slong>(j)));
    }

private:
    nmod_mat_t matrix, inverse;
};

const Linked<Matrix> linked("FLINT", FLINT_VERSION);

} // namespace
