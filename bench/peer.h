// The inverse of a matrix modulo 65521 by other libraries, the peers: one for each file of peers/ that is linked.
#pragma once

#include <cstddef>
#include <cstdint>
#include <memory>
#include <string>
#include <vector>

// A matrix that a library holds ready.
class Peer {
public:
    virtual ~Peer() = default;

    // Computes the inverse; returns false if there is none.
    virtual bool invert() = 0;

    // Returns an entry of the inverse.
    virtual uint16_t entry(size_t i, size_t j) const = 0;
};

struct Library {
    std::string name, version;

    // Takes a matrix of n rows, row by row.
    std::unique_ptr<Peer> (*take)(size_t n, const std::vector<uint16_t> &entries);
};

// The libraries that are linked.
inline std::vector<Library> &libraries()
{
    static std::vector<Library> linked;
    return linked;
}

// Adds a library, given the class of its matrices.
template <class Matrix> struct Linked {
    Linked(const char *name, const char *version)
    {
        libraries().push_back({name, version, [](size_t n, const std::vector<uint16_t> &entries) -> std::unique_ptr<Peer> {
                                   return std::make_unique<Matrix>(n, entries);
                               }});
    }
};
