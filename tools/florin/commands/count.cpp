#include "commands/command.h"
#include "commands/options.h"
#include "datom_text.h"
#include "progress.h"

namespace florin {

namespace {

struct Given {
    StoreToRead store;
    RootOption root;
    BoundsOptions bounds;
};

void count(const Given &given, Output &out) {
    const TypedDatom from = given.bounds.lower(), to = given.bounds.upper();
    const auto store = given.store.open();
    const florinwick::Datom lower = store->put_aside(from), upper = store->put_aside(to);
    const std::uint64_t root = given.root.of(*store);
    florinwick::Listing listing = store->reader().list(root, lower, upper);
    Progress progress;
    std::uint64_t datoms = 0;
    for (const florinwick::Datom &datom : listing) {
        static_cast<void>(datom);
        datoms += 1;
        progress.tell([&] { return counted(datoms, "datom") + " so far"; });
    }
    progress.clear();
    // A refusal ends the loop too, and half a count is none.
    if (!listing.ended()) throw refusal(listing.answer(), "root " + page_text(root));
    out.tell(counted(datoms, "datom"), {{"datoms", datoms}, {"root", page_json(root)}});
}

}  // namespace

Run define_count(Words &words) {
    const auto given = std::make_shared<Given>();
    given->store.define_with_salvage(words);
    given->bounds.define(words);
    given->root.define(words, "at this root; the newest if not given");
    words.footer(kBoundsHelp);
    return [given](Output &out) { count(*given, out); };
}

}  // namespace florin
