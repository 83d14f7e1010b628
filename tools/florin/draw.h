// A tree as text and as a picture. Both read pages as they stand, and mark what they cannot follow.
#ifndef FLORIN_DRAW_H
#define FLORIN_DRAW_H

#include "page_view.h"
#include "store_file.h"
#include "walk.h"

#include <cstdio>
#include <optional>
#include <string>
#include <vector>

namespace florin {

struct Subject {
    florinwick::Reader reader;
    std::string name;                 // of the store
    std::uint64_t root;
    unsigned levels;                  // how many to show, from the root's on
    std::vector<Receipt> receipts;

    std::optional<PageView> page(std::uint64_t id) const { return page_of(reader, id); }
    std::optional<PageView> child(const PageView &parent, unsigned at) const { return child_of(reader, parent, at); }
    // The batch that wrote a page, from 1 on; 0 if that is not known.
    std::uint64_t batch_of(std::uint64_t page) const;
};

void draw_page(std::FILE *out, const PageView &page, const florinwick::HeapView &heap);
void draw_text(std::FILE *out, const Subject &subject);
std::string draw_svg(const Subject &subject);

}  // namespace florin

#endif
