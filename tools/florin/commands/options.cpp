#include "commands/options.h"

#include "datom_text.h"

#include <cstdio>

#include <unistd.h>

namespace florin {

using florinwick::Datom;

const char kDatomsHelp[] =
    "Datoms as text, one to a line, in batches that rise in the order of the store:\n"
    "\n"
    "  # entity attribute value transaction assert|retract     (+ and - for the last word do too)\n"
    "  1001 1 25000 2 assert\n"
    "  1001 2 \"FGBL\" 2 assert\n"
    "  ---                                                      (ends a batch; # begins a comment)\n"
    "\n"
    "A value is an integer below 2^64, a string in quotes (\\\" \\\\ \\xNN) of any length, or a raw word 0x...\n"
    "Integers from 2^62 on and strings of over 7 bytes are long values: they lie beside the pages, on the\n"
    "store's heap, each content once. A transaction is even. A batch has at most 128 datoms, and goes in\n"
    "once its end was seen: an input that ends within a batch is an error, and nothing of that batch is\n"
    "written. With --binary a batch is its number of datoms, 8 bytes little-endian, then 32 bytes for each\n"
    "datom; its words name long values that lie in this store already.\n";

const char kBoundsHelp[] =
    "A BOUND is a datom of 1 to 5 words; max may stand for any of the first four, and what is left out is\n"
    "the least: --from \"1001\" --to \"1002\" is entity 1001. Its value may be of any length.\n"
    "\n"
    "Its words have the places of a datom's, and it is compared in the order of the store, which florin stat\n"
    "shows. Where that begins with the attribute, 0 stands for an entity that is not asked for:\n"
    "\n"
    "  aevt, avet   attribute 2 of all entities            --from \"0 2\" --to \"0 3\"\n"
    "  aevt         attribute 2 of entities 1001 to 1010   --from \"1001 2\" --to \"1011 2\"\n"
    "  avet         attribute 2 with the value 500         --from \"0 2 500\" --to \"max 2 500 max\"\n"
    "  avet         attribute 2, from 500 to below 600     --from \"0 2 500\" --to \"0 2 600\"\n";

std::uint64_t number_word(const std::string &word, const std::string &what) {
    try {
        return parse_number(word, what);
    } catch (const BadText &bad) {
        throw usage_trouble(bad.message);
    }
}

namespace {

std::unique_ptr<StoreFile> opened(const std::string &path, const Opening &opening) {
    auto store = std::make_unique<StoreFile>(path, opening);
    if (store->has_broken_slot()) {
        std::fprintf(stderr, "florin: note: one of the two heads of %s is not valid, as after a cut while it was written; the other is used.\n",
                     path.c_str());
    }
    if (store->has_broken_receipts()) {
        std::fprintf(stderr, "florin: note: the receipts of %s are not those that its head speaks of; what is shown may be of no one moment.\n",
                     path.c_str());
    }
    return store;
}

}  // namespace

void StoreToRead::define(Words &words) { words.word("STORE", path, "the store's file"); }

void StoreToRead::define_with_salvage(Words &words) {
    define(words);
    words.flag("--salvage", salvage, "go on though the receipts are damaged");
}

std::unique_ptr<StoreFile> StoreToRead::open() const { return opened(path, {Access::Read, 0, salvage}); }

void StoreToWrite::define(Words &words) {
    words.word("STORE", path, "the store's file");
    words.seconds("--wait", wait, "wait so many seconds for another writer to end");
}

std::unique_ptr<StoreFile> StoreToWrite::open() const { return opened(path, {Access::Write, wait, false}); }

void RootOption::define(Words &words, const std::string &help) { words.text("--root", word, "ROOT", help); }

std::uint64_t RootOption::of(const StoreFile &store) const {
    if (!word) return store.head().root();
    if (*word == "none") return florinwick::none;
    if (word->empty() || (*word)[0] != '@') return number_word(*word, "root");
    const std::uint64_t at = number_word(word->substr(1), "batch behind @");
    if (store.has_broken_receipts()) throw usage_trouble("the receipts are damaged, so what " + *word + " led to is not known");
    const std::vector<Receipt> receipts = store.receipts();
    if (at < 1 || at > receipts.size()) {
        throw usage_trouble(receipts.empty() ? "no batch is in, so there is no " + *word
                                             : "there are batches @1 to @" + std::to_string(receipts.size()) + ", no " + *word);
    }
    return receipts[at - 1].root;
}

void BoundsOptions::define(Words &words) {
    words.text("--from", from, "BOUND", "from this bound on");
    words.text("--to", to, "BOUND", "up to this bound, not including it");
}

namespace {

TypedDatom bound_of(const std::optional<std::string> &word, const char *option, const Datom &otherwise) {
    if (!word) return {otherwise};
    try {
        return parse_bound(*word);
    } catch (const BadText &bad) {
        throw usage_trouble(std::string(option) + ": " + bad.message);
    }
}

}  // namespace

TypedDatom BoundsOptions::lower() const { return bound_of(from, "--from", Datom::min()); }
TypedDatom BoundsOptions::upper() const { return bound_of(to, "--to", Datom::max()); }

void FormOption::define(Words &words, const std::string &help) { words.flag("--binary", binary, help); }

void InputOptions::define(Words &words) {
    words.word_or_not("FILE", path, "datoms; the standard input if not given, or -");
    form.define(words, "the input is binary");
    words.number("--every", cut.every, "N", "cut the input into batches of N", 1, FLORINWICK_BATCH_MAX);
    words.flag("--last-batch-open", cut.last_may_be_open, "the end of the input ends a batch too");
    words.flag("--sort", sort, "sort each batch into the order of the store first");
}

std::unique_ptr<Batches> InputOptions::open() const {
    if (form.binary && cut.every != 0) throw usage_trouble("--every does not go with --binary: a binary input says its batches itself");
    if (form.binary && cut.last_may_be_open) throw usage_trouble("--last-batch-open does not go with --binary: a binary batch says how long it is");
    if (path == "-" && isatty(STDIN_FILENO) == 1) {
        std::fprintf(stderr, "florin: type datoms, one to a line; a line --- ends a batch, Ctrl-D the input.\n");
    }
    return std::make_unique<Batches>(path, form.form(), cut);
}

}  // namespace florin
