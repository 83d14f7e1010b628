#include "commands/command.h"
#include "commands/options.h"
#include "datom_text.h"
#include "fault_words.h"
#include "progress.h"
#include "walk.h"

#include <algorithm>
#include <set>

namespace florin {

using florinwick::Answer;

namespace {

struct Given {
    StoreToRead store;
    RootOption root;
    bool all = false, walk = false;
};

// The batch that wrote a page, as florin roots names it; "" if that is not known.
std::string writer_of(const std::vector<Receipt> &receipts, std::uint64_t page) {
    for (std::size_t i = 0; i < receipts.size(); ++i) {
        if (page < receipts[i].page_count) return ", written by batch @" + std::to_string(i + 1);
    }
    return "";
}

Trouble altered(const StoreFile &store, std::uint64_t page, std::uint64_t root) {
    return {kAltered, "Altered",
            "page " + std::to_string(page) + ", root " + page_text(root) + writer_of(store.receipts(), page) +
                ".\n  Its checksum is not the one that was kept when it was written.",
            "restore the file from a backup; florin check --all says which roots do not reach the page.",
            {{"page", page}, {"root", page_json(root)}}};
}

Trouble altered_values(std::uint64_t page, std::uint64_t root, std::uint64_t batch) {
    return {kAltered, "Altered",
            "page " + std::to_string(page) + ", root " + page_text(root) + ": it names a long value of batch @" + std::to_string(batch) +
                ".\n  The long values of that batch have not the checksum that was kept when they were written.",
            "restore the file from a backup; florin check --all says which roots do not reach the page.",
            {{"page", page}, {"root", page_json(root)}, {"receipt", batch}}};
}

// Pages whose kept checksums are not those that the receipt of their batch speaks of: they tell nothing of the page.
std::vector<bool> unvouched_pages(const StoreFile &store) {
    std::vector<bool> unvouched(store.head().page_count);
    for (const Receipt &receipt : store.receipts()) {
        if (store.has_sums_of(receipt)) continue;
        for (std::uint64_t i = 1; i <= receipt.pages; ++i) unvouched[receipt.page_count - i] = true;
    }
    return unvouched;
}

// What the checksums of pages and of long values are compared with, once for all roots.
struct Kept {
    explicit Kept(const StoreFile &store) : unvouched(unvouched_pages(store)), parts(store.heap_parts()) {}

    std::vector<bool> unvouched;
    HeapParts parts;
};

// The library's rules first, then the checksums of the pages that the tree has, then those of the long values that they name.
std::optional<Trouble> trouble_of(const StoreFile &store, std::uint64_t root, const Kept &kept) {
    const Answer answer = store.reader().check(root);
    if (!answer.done()) {
        Trouble trouble = refusal(answer, "root " + page_text(root));
        trouble.more.put("root", page_json(root));
        return trouble;
    }
    const std::vector<std::uint64_t> pages = pages_under(store.reader(), root);
    for (std::uint64_t page : pages) {
        if (!store.is_as_written(page)) return altered(store, page, root);
    }
    for (std::uint64_t page : pages) {
        if (kept.unvouched[page]) return altered(store, page, root);
    }
    for (std::uint64_t page : pages) {
        const auto view = page_of(store.reader(), page);
        const std::uint64_t batch = view ? kept.parts.altered_under(*view) : 0;
        if (batch != 0) return altered_values(page, root, batch);
    }
    return std::nullopt;
}

void check_one(const StoreFile &store, std::uint64_t root, Output &out) {
    Progress progress;
    progress.announce("checking root " + page_text(root));
    const auto trouble = trouble_of(store, root, Kept(store));
    progress.clear();
    if (trouble) throw *trouble;
    const std::uint64_t pages = pages_under(store.reader(), root).size();
    out.tell("Sound: root " + page_text(root) + ", " + counted(pages, "page") + " as written",
             {{"sound", true}, {"root", page_json(root)}, {"pages", pages}});
}

// Every batch went in at none or at a root that a receipt had given. florin 0.1 took any page.
bool is_history(const std::vector<Receipt> &receipts) {
    std::set<std::uint64_t> given = {florinwick::none};
    for (const Receipt &receipt : receipts) {
        if (given.count(receipt.from) == 0) return false;
        given.insert(receipt.root);
    }
    return true;
}

// A page that its batch's own tree does not have. No insert of this library leaves one; if there is one, the file is still not as it was.
Trouble altered_aside(std::uint64_t page) {
    return {kAltered, "Altered", "page " + std::to_string(page) + ", which no root reaches, is not as it was written. All roots are sound.",
            "look at the disk. florin dump and load make a store without the damage.", {{"page", page}}};
}

// Long values that no page names: the middle of a binary batch's constant may be, or what an altered page named.
Trouble altered_values_aside(std::uint64_t batch) {
    return {kAltered, "Altered",
            "long values of batch @" + std::to_string(batch) + ", which no page names, are not as they were written. All roots are sound.",
            "look at the disk. florin dump and load make a store without the damage.", {{"receipt", batch}}};
}

// One line for a root that is not sound; the first of them is told in full at the end.
void tell_of_root(std::uint64_t number, std::uint64_t root, const Trouble &trouble, Output &out) {
    Json object = {{"receipt", number}, {"sound", false}, {"error", trouble.name}};
    object.put_all(trouble.more);
    const std::string fault = trouble.fault ? ", " + fault_words(*trouble.fault).name : "";
    out.tell("@" + std::to_string(number) + " root " + page_text(root) + ": " + trouble.name + ", page " + trouble.more["page"].text() + fault,
             object);
}

// A tree all of whose pages are as accepted inserts of a history left them is sound: that is proved (crates/demand, `sound`). So each page
// is compared once, and walked by the library are the newest root and those that reach an altered page; with --walk all.
void check_all(const StoreFile &store, bool walk, Output &out) {
    Progress progress;
    progress.announce("comparing the pages with their checksums");
    const Kept kept(store);
    std::vector<bool> bad = kept.unvouched;
    for (std::uint64_t page = 0; page < bad.size(); ++page) {
        const auto view = page_of(store.reader(), page);
        bad[page] = bad[page] || !store.is_as_written(page) || (view && kept.parts.altered_under(*view) != 0);
    }
    const std::vector<bool> reaches = reaching(store.reader(), bad);
    const std::vector<Receipt> receipts = store.receipts();
    walk = walk || !is_history(receipts);
    std::optional<Trouble> first;
    std::uint64_t number = 0, walked = 0;
    for (const Receipt &receipt : receipts) {
        progress.tell([&] { return "checking root " + grouped(number + 1) + " of " + grouped(receipts.size()); });
        number += 1;
        if (!walk && number < receipts.size() && !reaches[receipt.root]) continue;
        walked += 1;
        const auto trouble = trouble_of(store, receipt.root, kept);
        if (!trouble) continue;
        progress.clear();
        tell_of_root(number, receipt.root, *trouble, out);
        if (!first) first = *trouble;
    }
    progress.clear();
    out.flush();
    if (first) throw *first;
    const auto aside = std::find(bad.begin(), bad.end(), true);
    if (aside != bad.end()) throw altered_aside(static_cast<std::uint64_t>(aside - bad.begin()));
    if (const std::uint64_t batch = kept.parts.first_altered()) throw altered_values_aside(batch);
    const std::uint64_t heap = store.head().heap_length;
    out.tell("Sound: all " + counted(receipts.size(), "root") + "; " + counted(bad.size(), "page") +
                 (heap > 0 ? " and " + counted(heap, "byte") + " of long values" : "") + " as written, " + counted(walked, "root") + " walked",
             {{"sound", true}, {"roots", receipts.size()}, {"pages", bad.size()}, {"walked", walked}, {"heap_bytes", heap}});
}

void check(const Given &given, Output &out) {
    if (given.all && given.root.word) throw usage_trouble("--all and --root do not go together");
    if (given.walk && !given.all) throw usage_trouble("--walk goes with --all");
    const auto store = given.store.open();
    if (given.all && store->has_broken_receipts()) {
        throw usage_trouble("--all needs the receipts, and they are damaged; without it the newest root is checked");
    }
    if (given.all) return check_all(*store, given.walk, out);
    check_one(*store, given.root.of(*store), out);
}

}  // namespace

Run define_check(Words &words) {
    const auto given = std::make_shared<Given>();
    given->store.define_with_salvage(words);
    given->root.define(words, "the tree of this root; the newest if not given");
    words.flag("--all", given->all, "the trees of all roots");
    words.flag("--walk", given->walk, "with --all: walk every root by itself");
    words.footer("Of a tree: the rules of every page, the levels, the bounds between pages, and that every page and every long value\n"
               "that it names has the checksum it was written with. With --all every page in use and every long value is compared\n"
               "with its checksum once, and the library walks the newest root and those that reach what is altered: the others are\n"
               "what accepted inserts left, and those are proved to be sound.\n"
               "\n"
               "Damaged and Unsound name a page and its fault, the first that was met:\n"
               "\n" + faults_text() + "\n"
               "Where there is no backup, florin list STORE --root @N --every 128 prints a root that is sound as batches, and\n"
               "florin insert takes them into a new store of the same order.\n");
    return [given](Output &out) { check(*given, out); };
}

}  // namespace florin
