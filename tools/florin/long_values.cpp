#include "long_values.h"

#include "checksum.h"

#include <algorithm>

namespace florin {

using florinwick::ByteView;
using florinwick::Datom;
using florinwick::HeapView;
using florinwick::Value;

namespace {

void add_word(std::vector<std::uint8_t> &bytes, std::uint64_t word) {
    bytes.resize(bytes.size() + 8);
    florinwick::put_word(bytes.data() + bytes.size() - 8, word);
}

// The two top bits of a value word, which say what kind of constant it names.
const std::uint64_t kNamesInteger = std::uint64_t{1} << 62;
const std::uint64_t kNamesText = std::uint64_t{3} << 62;

void add_summed(std::vector<std::uint8_t> &bytes, Datom datom, std::uint64_t kind, ByteView constant) {
    datom.value = Value{kind};
    bytes.resize(bytes.size() + Datom::size);
    datom.write(bytes.data() + bytes.size() - Datom::size);
    bytes.insert(bytes.end(), constant.begin(), constant.end());
}

}  // namespace

std::vector<std::uint8_t> constant_of(const LongValue &value) {
    std::vector<std::uint8_t> bytes;
    if (const auto *integer = std::get_if<std::uint64_t>(&value)) {
        add_word(bytes, *integer);
        return bytes;
    }
    const std::string &text = std::get<std::string>(value);
    add_word(bytes, text.size());
    bytes.insert(bytes.end(), text.begin(), text.end());
    bytes.resize((bytes.size() + 7) / 8 * 8);
    return bytes;
}

void add_summed(std::vector<std::uint8_t> &bytes, Datom datom, const LongValue &value) {
    const std::vector<std::uint8_t> constant = constant_of(value);
    add_summed(bytes, datom, std::holds_alternative<std::string>(value) ? kNamesText : kNamesInteger, constant);
}

void add_summed(std::vector<std::uint8_t> &bytes, Datom datom, const HeapView &heap) {
    const bool is_long = datom.value.names_constant();
    const std::uint64_t word = !is_long ? datom.value.word : datom.value.names_text() ? kNamesText : kNamesInteger;
    add_summed(bytes, datom, word, heap.constant_of(datom.value));
}

void ConstantIndex::add(const HeapView &heap, Value value) {
    const ByteView constant = heap.constant_of(value);
    by_sum_.emplace(checksum(constant.data(), constant.size()), value);
}

// An integer that has a place on a heap is too large to be a string's length, so each constant tells by its first word what it is.
void ConstantIndex::add_part(const HeapView &heap, std::uint64_t begin, std::uint64_t end) {
    for (std::uint64_t at = begin; at < end;) {
        const Value as_integer{kNamesInteger | at}, as_text{kNamesText | at};
        const Value value = heap.constant_of(as_integer).empty() ? as_text : as_integer;
        const std::uint64_t size = heap.constant_of(value).size();
        if (size == 0) return;
        add(heap, value);
        at += size;
    }
}

std::optional<Value> ConstantIndex::find(const HeapView &heap, const LongValue &value) const {
    const std::vector<std::uint8_t> wanted = constant_of(value);
    const auto [first, last] = by_sum_.equal_range(checksum(wanted.data(), wanted.size()));
    for (auto at = first; at != last; ++at) {
        const ByteView constant = heap.constant_of(at->second);
        if (std::equal(constant.begin(), constant.end(), wanted.begin(), wanted.end())) return at->second;
    }
    return std::nullopt;
}

}  // namespace florin
