#include "walk.h"

#include <algorithm>
#include <numeric>

namespace florin {

using florinwick::Reader;

std::optional<PageView> page_of(const Reader &reader, std::uint64_t id) {
    const florinwick::ByteView bytes = reader.fetch(id);
    if (bytes.empty()) return std::nullopt;
    const PageView view(id, bytes);
    if (!view.is_plausible()) return std::nullopt;
    return view;
}

std::optional<PageView> child_of(const Reader &reader, const PageView &parent, unsigned at) {
    if (parent.child(at) >= parent.id()) return std::nullopt;
    const std::optional<PageView> view = page_of(reader, parent.child(at));
    if (!view || view->level() + 1 != parent.level()) return std::nullopt;
    return view;
}

// The library reads a page before all others when it looks for a datom under it.
std::optional<florinwick::Fault> broken_rule_of(const Reader &reader, std::uint64_t id) {
    const florinwick::Answer answer = reader.held(id, {florinwick::Datom::min()});
    return answer.detail == id ? answer.fault : std::nullopt;
}

std::optional<florinwick::Fault> fault_of_child(const Reader &reader, const PageView &parent, unsigned at) {
    if (parent.child(at) >= parent.id()) return std::nullopt;
    return broken_rule_of(reader, parent.child(at)).value_or(florinwick::Fault::WrongLevel);
}

namespace {

// In a damaged store one page may be a child many times over. A tree has no more pages than the store, and the walk ends there.
template <class Visit>
void walk_below(const Reader &reader, const PageView &page, std::uint64_t &left, std::uint64_t &lost, const Visit &visit) {
    if (left == 0) {
        lost += 1;
        return;
    }
    left -= 1;
    visit(page);
    for (unsigned i = 0; i <= page.count(); ++i) {
        if (!page.has_child(i)) continue;
        if (const auto child = child_of(reader, page, i)) {
            walk_below(reader, *child, left, lost, visit);
        } else {
            lost += 1;
        }
    }
}

template <class Visit>
std::uint64_t walk(const Reader &reader, std::uint64_t root, const Visit &visit) {
    std::uint64_t left = reader.page_count(), lost = 0;
    if (const auto page = page_of(reader, root)) walk_below(reader, *page, left, lost, visit);
    return lost;
}

}  // namespace

Shape Shape::of(const Reader &reader, std::uint64_t root) {
    Shape shape;
    shape.pages.resize(FLORINWICK_LEVELS);
    shape.filled.resize(FLORINWICK_LEVELS);
    shape.lost = walk(reader, root, [&](const PageView &page) {
        shape.pages[page.level()] += 1;
        shape.filled[page.level()] += page.count();
        for (unsigned i = 0; i < page.count(); ++i) shape.pending += page.is_pending(i);
    });
    return shape;
}

std::uint64_t Shape::all_pages() const { return std::accumulate(pages.begin(), pages.end(), std::uint64_t{0}); }

std::uint64_t Shape::datoms() const { return std::accumulate(filled.begin(), filled.end(), std::uint64_t{0}); }

unsigned Shape::height() const {
    unsigned height = 0;
    for (unsigned level = 0; level < pages.size(); ++level) height = pages[level] > 0 ? level + 1 : height;
    return height;
}

std::vector<std::uint64_t> pages_under(const Reader &reader, std::uint64_t root) {
    std::vector<std::uint64_t> pages;
    walk(reader, root, [&](const PageView &page) { pages.push_back(page.id()); });
    std::sort(pages.begin(), pages.end());
    pages.erase(std::unique(pages.begin(), pages.end()), pages.end());
    return pages;
}

std::vector<bool> reaching(const Reader &reader, const std::vector<bool> &bad) {
    std::vector<bool> reaches = bad;
    for (std::uint64_t id = 0; id < reaches.size(); ++id) {
        const auto page = page_of(reader, id);
        if (!page || page->level() == 0) continue;
        for (unsigned i = 0; i <= page->count() && !reaches[id]; ++i) {
            reaches[id] = page->has_child(i) && page->child(i) < id && reaches[page->child(i)];
        }
    }
    return reaches;
}

}  // namespace florin
