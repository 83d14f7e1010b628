// Long values: content that has no inline form, an integer of 2^62 or more or a string of over seven bytes. Each has its place on a heap.
#ifndef FLORIN_LONG_VALUES_H
#define FLORIN_LONG_VALUES_H

#include "florinwick.hpp"

#include <optional>
#include <string>
#include <unordered_map>
#include <variant>
#include <vector>

namespace florin {

// They compare as the tree has them: integers before strings, these by their bytes.
using LongValue = std::variant<std::uint64_t, std::string>;

// A datom as it is typed. While its long value has no place on a heap, max stands in its word, which no store takes.
struct TypedDatom {
    florinwick::Datom datom;
    std::optional<LongValue> long_value = {};
};

// The constant, as it lies on a heap.
std::vector<std::uint8_t> constant_of(const LongValue &value);

// A datom as the checksum of its batch takes it: its 32 bytes; for a long value with no offset in its word, and the constant behind them. So
// the checksum is that of the content, wherever on a heap it lies, and a sender can compute it.
void add_summed(std::vector<std::uint8_t> &bytes, florinwick::Datom datom, const LongValue &value);
void add_summed(std::vector<std::uint8_t> &bytes, florinwick::Datom datom, const florinwick::HeapView &heap);

// Where on a heap content lies already, so that it is not appended twice.
class ConstantIndex {
public:
    // All constants of a part of a heap, one behind the other; what is none ends it.
    void add_part(const florinwick::HeapView &heap, std::uint64_t begin, std::uint64_t end);
    void add(const florinwick::HeapView &heap, florinwick::Value value);
    void add_all(const ConstantIndex &other) { by_sum_.insert(other.by_sum_.begin(), other.by_sum_.end()); }
    void clear() { by_sum_.clear(); }
    std::optional<florinwick::Value> find(const florinwick::HeapView &heap, const LongValue &value) const;

private:
    // By the checksum of the constant.
    std::unordered_multimap<std::uint64_t, florinwick::Value> by_sum_;
};

}  // namespace florin

#endif
