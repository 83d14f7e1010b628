// The checksum of everything that florin keeps: XXH64, which finds torn writes, stray edits and flipped bits, and is no guard against malice.
// xxh64sum(1) computes the same of a file.
#ifndef FLORIN_CHECKSUM_H
#define FLORIN_CHECKSUM_H

#include "florinwick.hpp"

#include <xxhash.h>

namespace florin {

inline std::uint64_t checksum(const std::uint8_t *bytes, std::size_t length) { return XXH64(bytes, length, 0); }

// A page has its number in its checksum, so that two pages which changed places do not pass.
inline std::uint64_t page_checksum(std::uint64_t page, florinwick::ByteView bytes) { return XXH64(bytes.data(), bytes.size(), page); }

}  // namespace florin

#endif
