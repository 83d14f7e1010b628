// Datoms, constants, orders and pages to the text of documents 01 and 02, for making batches and for looking at what a call wrote.
#pragma once

#include <algorithm>
#include <array>
#include <cstdint>
#include <cstring>
#include <string_view>
#include <tuple>

#include "entries.h"

using Datom = std::array<uint64_t, 4>;

inline uint64_t word_at(const uint8_t *bytes) {
    uint64_t word;
    memcpy(&word, bytes, 8);
    return word;
}

inline Datom datom_at(const uint8_t *bytes) {
    return {word_at(bytes), word_at(bytes + 8), word_at(bytes + 16), word_at(bytes + 24)};
}

// What the top bits of a value say.
enum Tag : uint64_t { Integer = 0, IntegerAt = 1, Bytes = 2, BytesAt = 3 };

inline uint64_t tag_of(uint64_t value) { return value >> 62; }
inline uint64_t offset_of(uint64_t value) { return value & ((uint64_t{1} << 62) - 1); }

inline bool is_zero(const uint8_t *from, const uint8_t *to) {
    return std::all_of(from, to, [](uint8_t byte) { return byte == 0; });
}

// What 3 is not given for: anything but max, and a byte string of more than 7 bytes or with unused ones that are not zero.
inline bool is_formed(const Datom &datom) {
    uint64_t value = datom[2], length = value >> 56 & 63;
    if (tag_of(value) != Bytes) {
        return value != FLORINWICK_MAX;
    }
    return length <= 7 && (length == 7 || (value & ((uint64_t{1} << 56) - 1)) >> (8 * length) == 0);
}

// The bytes of a heap that are in use, and the order of the store that they serve.
struct Heap {
    const uint8_t *bytes;
    uint64_t length, order;

    // A word of a datom as it is compared.
    using Part = std::tuple<int, uint64_t, std::string_view>;

    // Whether so many bytes are there from a place on. Both may be any word.
    bool has(uint64_t from, uint64_t count) const { return from <= length && count <= length - from; }

    // "Heap integers are 2^62 or more."
    bool has_integer(uint64_t offset) const { return offset % 8 == 0 && has(offset, 8) && tag_of(word_at(bytes + offset)) != Integer; }

    // "Heap strings 8 bytes or more", and "zeros to a multiple of 8".
    bool has_bytes(uint64_t offset) const {
        if (offset % 8 != 0 || !has(offset, 8)) {
            return false;
        }
        uint64_t count = word_at(bytes + offset), start = offset + 8, padding = (8 - count % 8) % 8;
        return count >= 8 && has(start, count) && has(start + count, padding)
            && is_zero(bytes + start + count, bytes + start + count + padding);
    }

    bool is_storable(const Datom &datom) const {
        uint64_t value = datom[2], tag = tag_of(value);
        return is_formed(datom) && (tag == IntegerAt ? has_integer(offset_of(value)) : tag != BytesAt || has_bytes(offset_of(value)));
    }

    // Integers before byte strings before all else; of a constant nothing is asked but that its bytes are there. An inline string's
    // bytes are the value's own.
    Part content(const uint64_t &value) const {
        auto text = [](const uint8_t *from, uint64_t count) { return std::string_view(reinterpret_cast<const char *>(from), count); };
        uint64_t tag = tag_of(value), offset = offset_of(value);
        if (tag == Integer) {
            return {0, value, {}};
        }
        if (tag == Bytes && is_formed({0, 0, value, 0})) {
            return {1, 0, text(reinterpret_cast<const uint8_t *>(&value), value >> 56 & 63)};
        }
        if (tag == IntegerAt && has(offset, 8)) {
            return {0, word_at(bytes + offset), {}};
        }
        bool is_there = tag == BytesAt && value != FLORINWICK_MAX && has(offset, 8) && has(offset + 8, word_at(bytes + offset));
        return is_there ? Part(1, 0, text(bytes + offset + 8, word_at(bytes + offset))) : Part(2, 0, {});
    }

    // The words of a datom, the one that decides first in front.
    std::array<Part, 4> parts(const Datom &datom) const {
        Part entity(0, datom[0], {}), attribute(0, datom[1], {}), value = content(datom[2]), last(0, datom[3], {});
        switch (order) {
        case Aevt: return {attribute, entity, value, last};
        case Avet: return {attribute, value, entity, last};
        default: return {entity, attribute, value, last};
        }
    }

    bool is_below(const Datom &left, const Datom &right) const { return parts(left) < parts(right); }

    auto below() const {
        return [heap = *this](const Datom &left, const Datom &right) { return heap.is_below(left, right); };
    }
};

// How many datoms a page holds; 0 for an unknown size.
inline size_t capacity(uint64_t page_size) {
    return page_size == 256 ? 6 : page_size == 568 ? 13 : page_size == 4096 ? 102 : page_size == 8192 ? 204 : 0;
}

inline size_t level_of(const uint8_t *page, uint64_t page_size) {
    return page[40 * capacity(page_size) + 8];
}

inline size_t count_of(const uint8_t *page, uint64_t page_size) {
    return page[40 * capacity(page_size) + 9];
}

inline uint64_t broken_in_datoms(const uint8_t *page, size_t count, const Heap &heap) {
    for (size_t i = 0; i < count; i++) {
        if (!heap.is_storable(datom_at(page + 32 * i))) {
            return Form;
        }
    }
    for (size_t i = 1; i < count; i++) {
        if (!heap.is_below(datom_at(page + 32 * i - 32), datom_at(page + 32 * i))) {
            return Order;
        }
    }
    return NO_FAULT;
}

inline uint64_t broken_in_children(const uint8_t *children, size_t count, size_t level, uint64_t id) {
    bool has_real = false, has_later = false;
    for (size_t i = 0; i <= count; i++) {
        uint64_t child = word_at(children + 8 * i);
        has_real |= child != NONE;
        has_later |= child != NONE && child >= id;
    }
    if (level == 0) {
        return has_real ? LeafChild : NO_FAULT;
    }
    return word_at(children + 8 * count) == NONE ? LastChild : has_later ? ChildId : NO_FAULT;
}

// The first rule of document 01's "Readable" that the page with this id breaks, or none.
inline uint64_t broken_rule(const uint8_t *page, uint64_t page_size, uint64_t id, const Heap &heap) {
    size_t room = capacity(page_size), header = 40 * room + 8, level = page[header], count = page[header + 1];
    if (level > 7 || count > room) {
        return level > 7 ? Level : Count;
    }
    uint64_t in_datoms = broken_in_datoms(page, count, heap);
    return in_datoms != NO_FAULT ? in_datoms : broken_in_children(page + 32 * room, count, level, id);
}

// A page as the library writes it: readable, with zeros elsewhere.
inline bool is_written_page(const uint8_t *page, uint64_t page_size, uint64_t id, const Heap &heap) {
    if (broken_rule(page, page_size, id, heap) != NO_FAULT) {
        return false;
    }
    size_t room = capacity(page_size), header = 40 * room + 8, count = page[header + 1];
    return is_zero(page + 32 * count, page + 32 * room) && is_zero(page + 32 * room + 8 * (count + 1), page + header)
        && is_zero(page + header + 2, page + page_size);
}
