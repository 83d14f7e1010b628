#include "commands/command.h"
#include "commands/options.h"
#include "datom_text.h"
#include "progress.h"

#include <cstdio>

#include <unistd.h>

namespace florin {

using florinwick::Datom;

namespace {

struct Given {
    StoreToRead store;
    RootOption root;
    BoundsOptions bounds;
    FormOption form;
    std::uint64_t limit = UINT64_MAX, every = 0;
};

// Datoms as they come: lines with columns, bare words of 8 bytes, objects, or batches that florin insert takes.
class Printer {
public:
    Printer(const Given &given, const florinwick::HeapView &heap, Output &out) : given_(given), heap_(heap), out_(out) {}

    void put(const Datom &datom) {
        if (given_.every != 0) {
            batch_.add(datom);
            if (batch_.datoms() == given_.every) end();
        } else if (out_.json()) {
            out_.tell("", datom_json(datom, heap_));
        } else if (given_.form.binary) {
            std::uint8_t bytes[Datom::size];
            datom.write(bytes);
            std::fwrite(bytes, 1, sizeof bytes, stdout);
        } else {
            std::fputs(row(datom).c_str(), stdout);
        }
    }

    // The last batch may be shorter.
    void end() {
        if (batch_.bytes.empty()) return;
        const std::string text = batch_text(batch_, given_.form.form(), heap_);
        std::fwrite(text.data(), 1, text.size(), stdout);
        batch_ = Batch{};
    }

private:
    // A value may be of any length.
    std::string row(const Datom &datom) const {
        char before[64], after[64];
        std::snprintf(before, sizeof before, "%10llu %6llu ", static_cast<unsigned long long>(datom.entity),
                      static_cast<unsigned long long>(datom.attribute));
        std::snprintf(after, sizeof after, " %10llu %s\n", static_cast<unsigned long long>(datom.transaction()),
                      datom.is_assert() ? "assert" : "retract");
        std::string value = value_text(datom.value, heap_);
        if (value.size() < 12) value.resize(12, ' ');
        return before + value + after;
    }

    const Given &given_;
    const florinwick::HeapView heap_;
    Output &out_;
    Batch batch_;
};

void list(const Given &given, Output &out) {
    if (out.json() && (given.form.binary || given.every != 0)) throw usage_trouble("--json goes with neither --binary nor --every");
    const TypedDatom from = given.bounds.lower(), to = given.bounds.upper();
    const auto store = given.store.open();
    const Datom lower = store->put_aside(from), upper = store->put_aside(to);
    const bool followed = isatty(STDOUT_FILENO) == 0;
    const std::uint64_t root = given.root.of(*store);
    florinwick::Listing listing = store->reader().list(root, lower, upper);
    Progress progress;
    Printer printer(given, store->heap(), out);
    std::uint64_t listed = 0;
    for (const Datom &datom : listing) {
        if (listed == given.limit) break;
        printer.put(datom);
        listed += 1;
        if (followed) progress.tell([&] { return counted(listed, "datom") + " listed"; });
        if (std::ferror(stdout)) break;
    }
    // A listing that is broken off hands out no batch that is half there.
    const bool broken_off = !listing.ended() && !listing.answer().done();
    if (!broken_off) printer.end();
    progress.clear();
    out.flush();
    if (broken_off) throw refusal(listing.answer(), "root " + page_text(root) + (listed > 0 ? ", after " + counted(listed, "datom") : ""));
}

}  // namespace

Run define_list(Words &words) {
    const auto given = std::make_shared<Given>();
    given->store.define_with_salvage(words);
    given->bounds.define(words);
    given->root.define(words, "at this root; the newest if not given");
    words.number("--limit", given->limit, "N", "at most so many");
    words.number("--every", given->every, "N", "as batches of N, which florin insert takes", 1, FLORINWICK_BATCH_MAX);
    given->form.define(words, "four words of 8 bytes for each datom");
    words.footer(kBoundsHelp);
    return [given](Output &out) { list(*given, out); };
}

}  // namespace florin
