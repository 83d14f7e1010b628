// What stands in a page, read for show only: the library alone decides whether it is readable.
#ifndef FLORIN_PAGE_VIEW_H
#define FLORIN_PAGE_VIEW_H

#include "florinwick.hpp"

#include <cstdint>
#include <vector>

namespace florin {

// Datoms at 0, children (one more than datoms) at 32C, level and count at 40C+8.
class PageView {
public:
    PageView(std::uint64_t id, florinwick::ByteView bytes) : id_(id), bytes_(bytes) {}

    std::uint64_t id() const { return id_; }
    static unsigned capacity_of(std::uint64_t page_size) { return static_cast<unsigned>((page_size - 16) / 40); }
    unsigned capacity() const { return capacity_of(bytes_.size()); }
    unsigned level() const { return bytes_[40 * capacity() + 8]; }
    unsigned count() const { return bytes_[40 * capacity() + 9]; }
    // Level and count are such that the rest can be shown.
    bool is_plausible() const { return level() < FLORINWICK_LEVELS && count() <= capacity(); }

    florinwick::Datom datom(unsigned at) const { return florinwick::Datom::read(bytes_.data() + 32 * at); }
    std::uint64_t child(unsigned at) const { return florinwick::get_word(bytes_.data() + 32 * capacity() + 8 * at); }
    bool has_child(unsigned at) const { return child(at) != florinwick::none; }
    // A datom above level 0 that waits to be sent down.
    bool is_pending(unsigned at) const { return level() > 0 && !has_child(at); }

private:
    std::uint64_t id_;
    florinwick::ByteView bytes_;
};

}  // namespace florin

#endif
