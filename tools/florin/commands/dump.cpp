#include "batch_of.h"
#include "commands/command.h"
#include "commands/options.h"
#include "datom_text.h"
#include "dump_text.h"
#include "heap_parts.h"
#include "progress.h"

#include <cstdio>

#include <unistd.h>

namespace florin {

namespace {

struct Given {
    StoreToRead store;
    std::string path = "-";
};

// The standard output, or a new file that gets its name when all of the dump is in it.
class Target {
public:
    explicit Target(const std::string &path) : path_(path) {
        if (path != "-") file_.emplace(path);
    }
    bool is_file() const { return file_.has_value(); }

    void put(const std::string &text) {
        if (!file_) {
            std::fwrite(text.data(), 1, text.size(), stdout);
            return;
        }
        write_whole(file_->file(), reinterpret_cast<const std::uint8_t *>(text.data()), text.size(), length_, path_);
        length_ += text.size();
    }
    void end(Output &out) {
        if (file_) file_->keep();
        out.flush();
    }

private:
    std::string path_;
    std::optional<NewFile> file_;
    std::uint64_t length_ = 0;
};

// A dump has no long value that is not as it was written.
void see_constants(const HeapParts &parts, const Batch &batch) {
    for (std::uint64_t i = 0; i < batch.datoms(); ++i) {
        const std::uint64_t altered = parts.altered_under(batch.datom(i).value);
        if (altered == 0) continue;
        throw Trouble{kAltered, "Altered",
                      "batch @" + std::to_string(batch.number) + ": the long values of batch @" + std::to_string(altered) +
                          ", of which it has one, are not as they were written.",
                      "run florin check --all, and restore the file from a backup.", {{"receipt", altered}}};
    }
}

void dump(const Given &given, Output &out) {
    if (out.json()) throw usage_trouble("florin dump has no --json");
    const auto store = given.store.open();
    const std::vector<Receipt> receipts = store->receipts();
    Target target(given.path);
    Progress progress;
    const bool followed = target.is_file() || isatty(STDOUT_FILENO) == 0;
    const HeapParts parts = store->heap_parts();
    DumpText text;
    target.put(text.head(store->head()));
    std::uint64_t number = 0, datoms = 0;
    for (const Receipt &receipt : receipts) {
        number += 1;
        const Batch batch = batch_of(*store, receipt, number);
        see_constants(parts, batch);
        target.put(text.batch(receipt, batch, store->heap()));
        datoms += receipt.datoms;
        if (followed) progress.tell([&] { return counted(number, "batch") + " of " + grouped(receipts.size()) + " dumped"; });
        if (std::ferror(stdout)) break;
    }
    target.put(text.end());
    progress.clear();
    target.end(out);
    if (!target.is_file()) return;
    out.text("dumped " + given.store.path + " to " + given.path + ": " + counted(number, "batch") + " with " + counted(datoms, "datom"));
}

}  // namespace

Run define_dump(Words &words) {
    const auto given = std::make_shared<Given>();
    given->store.define(words);
    words.word_or_not("FILE", given->path, "the file to make; none may stand there. The standard output if not given, or -");
    words.footer("The dump has every batch with its datoms, its time and the batch whose root it was inserted at: florin load makes\n"
               "the same store of it, with the same roots and receipts, or one with another page size. florin insert takes it\n"
               "too, as batches. Where a batch is not found as its receipt says, the dump ends, and florin load refuses it.\n");
    return [given](Output &out) { dump(*given, out); };
}

}  // namespace florin
