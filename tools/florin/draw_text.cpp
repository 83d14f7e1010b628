#include "draw.h"

#include "datom_text.h"
#include "fault_words.h"

#include <algorithm>

namespace florin {

std::uint64_t Subject::batch_of(std::uint64_t page) const {
    const auto after = [](std::uint64_t id, const Receipt &receipt) { return id < receipt.page_count; };
    const auto found = std::upper_bound(receipts.begin(), receipts.end(), page, after);
    return found == receipts.end() ? 0 : static_cast<std::uint64_t>(found - receipts.begin()) + 1;
}

namespace {

const char *kind_of(const PageView &page, unsigned at) {
    if (page.level() == 0) return "";
    return page.is_pending(at) ? "  pending" : "  midpoint";
}

// How a page is told in one line.
std::string line_of(const PageView &page) {
    return "page " + std::to_string(page.id()) + ", level " + std::to_string(page.level()) + ", " + std::to_string(page.count()) + " of " +
           std::to_string(page.capacity()) + " datoms";
}

// The fault before what to do, if there is a name for it.
std::string named(std::optional<florinwick::Fault> fault) {
    return fault ? fault_text(*fault) + "; " : "";
}

class Outline {
public:
    Outline(std::FILE *out, const Subject &subject) : out_(out), subject_(subject) {}

    void below(const PageView &page, const std::string &indent, unsigned levels) {
        for (unsigned i = 0; i <= page.count(); ++i) {
            const bool last = i == page.count();
            if (page.has_child(i)) child(page, i, indent, last, levels);
            if (!last) datom(page, i, indent);
        }
    }

private:
    void datom(const PageView &page, unsigned at, const std::string &indent) {
        const char *branch = page.level() == 0 ? "  " : page.is_pending(at) ? "├┄ " : "├─ ";
        std::fprintf(out_, "%s%s%s%s\n", indent.c_str(), branch, datom_text(page.datom(at), subject_.reader.heap()).c_str(),
                     kind_of(page, at));
    }

    void child(const PageView &page, unsigned at, const std::string &indent, bool last, unsigned levels) {
        const char *branch = last ? "└─" : "├─";
        const auto child = subject_.child(page, at);
        if (!child || ++shown_ >= subject_.reader.page_count()) {
            const auto fault = child ? std::nullopt : fault_of_child(subject_.reader, page, at);
            std::fprintf(out_, "%s%s page %s cannot be followed: %srun florin check\n", indent.c_str(), branch, page_text(page.child(at)).c_str(),
                         named(fault).c_str());
            return;
        }
        std::fprintf(out_, "%s%s %s\n", indent.c_str(), branch, line_of(*child).c_str());
        if (levels > 1) below(*child, indent + (last ? "   " : "│  "), levels - 1);
    }

    std::FILE *out_;
    const Subject &subject_;
    std::uint64_t shown_ = 0;   // more than the store has pages are not shown, as in a walk that counts
};

}  // namespace

void draw_page(std::FILE *out, const PageView &page, const florinwick::HeapView &heap) {
    if (!page.is_plausible()) {
        std::fprintf(out, "page %s: level %u, %u of %u datoms; no page can have these\n", page_text(page.id()).c_str(), page.level(),
                     page.count(), page.capacity());
        return;
    }
    std::fprintf(out, "%s\n", line_of(page).c_str());
    for (unsigned i = 0; i <= page.count(); ++i) {
        if (page.has_child(i)) std::fprintf(out, "  child %s\n", page_text(page.child(i)).c_str());
        if (i < page.count()) std::fprintf(out, "%5u  %s%s\n", i, datom_text(page.datom(i), heap).c_str(), kind_of(page, i));
    }
}

void draw_text(std::FILE *out, const Subject &subject) {
    const auto root = subject.page(subject.root);
    if (!root) {
        const bool none = subject.root == florinwick::none;
        const std::string why = none ? "has no datoms" : "cannot be read: " + named(broken_rule_of(subject.reader, subject.root)) + "run florin check";
        std::fprintf(out, "root %s %s\n", page_text(subject.root).c_str(), why.c_str());
        return;
    }
    const Shape shape = Shape::of(subject.reader, subject.root);
    std::fprintf(out, "root %s: %s, %s of them pending, in %s\n", page_text(subject.root).c_str(), counted(shape.datoms(), "datom").c_str(),
                 grouped(shape.pending).c_str(), counted(shape.all_pages(), "page").c_str());
    std::fprintf(out, "%s\n", line_of(*root).c_str());
    Outline(out, subject).below(*root, "", subject.levels);
}

}  // namespace florin
