// The pages of a tree, followed for show and for what is counted: the library alone decides whether a tree is sound.
#ifndef FLORIN_WALK_H
#define FLORIN_WALK_H

#include "page_view.h"

#include <optional>
#include <vector>

namespace florin {

// A page in use that can be shown.
std::optional<PageView> page_of(const florinwick::Reader &reader, std::uint64_t id);
// A child that lies where one may: below its parent in number, and one level lower.
std::optional<PageView> child_of(const florinwick::Reader &reader, const PageView &parent, unsigned at);

// Which of the reader's rules a page in use breaks by itself, whatever leads to it; nothing if it can be read.
std::optional<florinwick::Fault> broken_rule_of(const florinwick::Reader &reader, std::uint64_t id);

// Why a child that child_of does not give cannot be followed, as far as the child itself shows it. One whose number is not below its
// parent's is the parent's fault.
std::optional<florinwick::Fault> fault_of_child(const florinwick::Reader &reader, const PageView &parent, unsigned at);

// How many pages and datoms a tree has.
struct Shape {
    std::vector<std::uint64_t> pages;    // by level
    std::vector<std::uint64_t> filled;   // by level: datoms in its pages
    std::uint64_t pending = 0;
    std::uint64_t lost = 0;              // children that cannot be followed

    static Shape of(const florinwick::Reader &reader, std::uint64_t root);
    std::uint64_t all_pages() const;
    std::uint64_t datoms() const;
    unsigned height() const;
};

// The pages that a tree has, each once, ascending. In a damaged store they may be fewer: a child that cannot be followed ends there.
std::vector<std::uint64_t> pages_under(const florinwick::Reader &reader, std::uint64_t root);

// For every page in use whether it, or a page that it leads to, is among `bad`. Children stand before their parents, so one pass does.
std::vector<bool> reaching(const florinwick::Reader &reader, const std::vector<bool> &bad);

}  // namespace florin

#endif
