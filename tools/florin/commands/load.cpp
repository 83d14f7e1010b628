#include "commands/command.h"
#include "commands/options.h"
#include "datom_text.h"
#include "dump_text.h"
#include "order_text.h"
#include "progress.h"

namespace florin {

using florinwick::Answer;

namespace {

struct Given {
    std::string path, dump = "-";
    std::optional<std::uint64_t> page_size;
};

// What was put in, for the last word.
struct Loaded {
    std::uint64_t batches = 0, datoms = 0, pages = 0, root = florinwick::none;
};

// Inserts the batches of a dump where they were inserted before. With the page size of the dump each leads to the same pages.
class Loading {
public:
    Loading(DumpReader &dump, std::uint64_t page_size) : dump_(dump), same_size_(page_size == dump.page_size()) {}

    Answer fill(StoreFile &store) {
        DumpedBatch dumped;
        while (dump_.next(dumped)) {
            take(store, dumped);
            progress_.tell([this] { return counted(loaded_.batches, "batch") + " with " + counted(loaded_.datoms, "datom") + " in"; });
        }
        progress_.clear();
        return {};
    }
    const Loaded &loaded() const { return loaded_; }

private:
    std::uint64_t root_of(const DumpedBatch &dumped) const {
        if (dumped.from == "none") return florinwick::none;
        const bool is_batch = dumped.from[0] == '@';
        std::uint64_t number = 0;
        try {
            number = parse_number(dumped.from.substr(is_batch), is_batch ? "batch" : "page");
        } catch (const BadText &bad) {
            throw dump_.altered(dumped.batch, bad.message);
        }
        if (is_batch) {
            if (number == 0 || number > roots_.size()) throw dump_.altered(dumped.batch, "no batch " + dumped.from + " is before it");
            return roots_[number - 1];
        }
        if (same_size_) return number;
        throw usage_trouble("batch " + std::to_string(dumped.batch.number) + " was inserted at page " + dumped.from +
                            ", which is no batch's root: that can be loaded with the page size of the dump alone");
    }

    void take(StoreFile &store, DumpedBatch &dumped) {
        Batch &batch = dumped.batch;
        const std::uint64_t from = root_of(dumped);
        const bool back = from != store.head().root();
        const Answer answer = store.insert(from, batch, {true, back ? Receipt::kBack : 0, dumped.time});
        if (!answer.done()) throw dump_.refused(answer, batch);
        if (answer.pages == 0) throw dump_.altered(batch, "it writes no page");
        if (same_size_ && (answer.root != dumped.root || answer.pages != dumped.pages)) {
            throw dump_.altered(batch, "it leads to root " + page_text(answer.root) + " with " + counted(answer.pages, "page") +
                                           ", and led to root " + page_text(dumped.root) + " with " + grouped(dumped.pages));
        }
        roots_.push_back(answer.root);
        loaded_ = {batch.number, loaded_.datoms + batch.datoms(), loaded_.pages + answer.pages, answer.root};
    }

    DumpReader &dump_;
    bool same_size_;
    std::vector<std::uint64_t> roots_;
    Loaded loaded_;
    Progress progress_;
};

void load(const Given &given, Output &out) {
    DumpReader dump(given.dump);
    const std::uint64_t page_size = given.page_size.value_or(dump.page_size());
    Loading loading(dump, page_size);
    const Answer answer = StoreFile::build(given.path, {page_size, dump.order()}, [&](StoreFile &store) { return loading.fill(store); });
    if (!answer.done()) throw refusal(answer, "");
    const Loaded &loaded = loading.loaded();
    out.tell("loaded " + given.path + ", pages of " + std::to_string(page_size) + " bytes" + order_note(dump.order()) + ": " +
                 counted(loaded.batches, "batch") + " with " + counted(loaded.datoms, "datom") + ", " + counted(loaded.pages, "page") + ", root " +
                 page_text(loaded.root),
             {{"loaded", given.path}, {"page_size", page_size}, {"order", order_name(dump.order())}, {"batches", loaded.batches},
              {"datoms", loaded.datoms}, {"pages", loaded.pages}, {"root", page_json(loaded.root)}});
}

}  // namespace

Run define_load(Words &words) {
    const auto given = std::make_shared<Given>();
    words.word("NEW", given->path, "the store to make; no file may stand there");
    words.word_or_not("FILE", given->dump, "what florin dump wrote; the standard input if not given, or -");
    words.number("--page-size", given->page_size, "BYTES", page_sizes_text() + "; that of the dump if not given");
    words.footer("Order, batches, times, branches and checksums are those of the dump. So are roots and pages, if the page size is: each is\n"
               "compared, and a store that came out in another way is not kept. A dump that was changed or cut off is refused.\n"
               "Batches that florin upgrade has brought over get the checksum of their datoms that they lacked.\n");
    return [given](Output &out) { load(*given, out); };
}

}  // namespace florin
