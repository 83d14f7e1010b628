#include "commands/command.h"
#include "commands/options.h"
#include "datom_text.h"
#include "held.h"
#include "progress.h"

#include <algorithm>

namespace florin {

using florinwick::Answer;
using florinwick::Number;

namespace {

struct Given {
    StoreToWrite store;
    InputOptions input;
    RootOption root;
    bool branch = false, resend = false, no_grow = false, quiet = false;
};

// The root to begin at. One that no receipt gave is no root; an older one is taken only where that is said.
std::uint64_t first_root(const Given &given, const StoreFile &store) {
    const std::uint64_t root = given.root.of(store), newest = store.head().root();
    if (root == newest) return root;
    const std::vector<Receipt> receipts = store.receipts();
    const auto gave = [&](const Receipt &receipt) { return receipt.root == root; };
    if (root != florinwick::none && std::none_of(receipts.begin(), receipts.end(), gave)) {
        throw Trouble{kNotARoot, "NotARoot", "page " + page_text(root) + " is no root that a receipt gave. Nothing was written.",
                      "take a root from florin roots.", {{"root", page_json(root)}}};
    }
    if (!given.branch) {
        throw Trouble{kNotARoot, "NotARoot",
                      "root " + page_text(root) + " is not the newest one, which is " + page_text(newest) + ". Nothing was written.",
                      "leave out --root; or say --branch, and the batches since then are no part of what follows.", {{"root", page_json(root)}}};
    }
    return root;
}

// A repeat says what the operator wants to know first: whether all of the batch is in, or only some of it.
Trouble repeat_trouble(Trouble trouble, const Batch &batch, std::uint64_t in) {
    trouble.more.put("held", in);
    trouble.more.put("datoms", batch.datoms());
    if (in == batch.datoms()) {
        trouble.what += " All of the batch is in, " + counted(in, "datom") + ": it was sent before.";
        trouble.next = "go on with the next batch, or let --resend pass over batches that are in.";
    } else {
        trouble.what += " The tree holds " + grouped(in) + " of the batch's " + counted(batch.datoms(), "datom") + ".";
    }
    return trouble;
}

struct Feed {
    std::uint64_t batches = 0, datoms = 0, pages = 0, passed = 0;
};

class Insertion {
public:
    Insertion(StoreFile &store, const Given &given, Output &out) : store_(store), given_(given), out_(out), root_(first_root(given, store)) {}

    void take(const Batches &batches, Batch &batch) {
        const bool back = root_ != store_.head().root();
        const Answer answer = store_.insert(root_, batch, {!given_.no_grow, back ? Receipt::kBack : 0, {}, given_.input.sort});
        if (answer.done()) {
            receive(batch, answer, back);
        } else if (answer.number == Number::Repeated) {
            repeat(batches.refused(answer, batch, store_.reader()), batch);
        } else {
            throw batches.refused(answer, batch, store_.reader());
        }
        progress_.tell([this] { return counted(feed_.batches, "batch") + " with " + counted(feed_.datoms, "datom") + " in"; });
    }

    void end() {
        progress_.clear();
        const std::uint64_t taken = feed_.batches + feed_.passed;
        if (taken == 1 && !given_.quiet && !out_.json()) return;
        out_.tell(taken == 0 ? "nothing was given, and nothing was written; root " + page_text(root_) : sum_of_feed(),
                  {{"batches", feed_.batches}, {"datoms", feed_.datoms}, {"pages", feed_.pages}, {"in_before", feed_.passed},
                   {"root", page_json(root_)}});
    }

private:
    std::string sum_of_feed() const {
        std::string text =
            counted(feed_.batches, "batch") + " with " + counted(feed_.datoms, "datom") + ": " + counted(feed_.pages, "page") + " written";
        if (feed_.passed > 0) text += ", " + counted(feed_.passed, "batch") + " in before";
        return text + ", root " + page_text(root_);
    }

    void receive(const Batch &batch, const Answer &answer, bool back) {
        const std::uint64_t from = root_;
        root_ = answer.root;
        feed_.batches += 1;
        feed_.datoms += batch.datoms();
        feed_.pages += answer.pages;
        if (given_.quiet) return;
        progress_.clear();
        const std::uint64_t receipt = store_.head().receipts;
        const std::string sum = sum_text(store_.newest_receipt().datoms_sum);
        out_.tell("batch " + std::to_string(batch.number) + " is in: " + counted(batch.datoms(), "datom") + ", " + counted(answer.pages, "page") +
                      " written, root " + page_text(answer.root) + " (@" + std::to_string(receipt) + ")" +
                      (back ? ", a branch from root " + page_text(from) : ""),
                  {{"batch", batch.number}, {"state", "in"}, {"datoms", batch.datoms()}, {"pages", answer.pages}, {"root", page_json(answer.root)},
                   {"receipt", receipt}, {"from", page_json(from)}, {"branch", back}, {"datoms_sum", sum}});
        // A feed that is followed sees each receipt when it is due.
        out_.flush();
    }

    void repeat(const Trouble &trouble, const Batch &batch) {
        const std::uint64_t in = batch.datoms() - missing_of(store_.reader(), root_, batch).size();
        if (!given_.resend || in != batch.datoms()) throw repeat_trouble(trouble, batch, in);
        feed_.passed += 1;
        if (given_.quiet) return;
        progress_.clear();
        out_.tell("batch " + std::to_string(batch.number) + " was in before: " + counted(in, "datom") + ", root " + page_text(root_),
                  {{"batch", batch.number}, {"state", "in_before"}, {"datoms", in}, {"pages", 0}, {"root", page_json(root_)}});
        out_.flush();
    }

    StoreFile &store_;
    const Given &given_;
    Output &out_;
    std::uint64_t root_;
    Feed feed_;
    Progress progress_;
};

void insert(const Given &given, Output &out) {
    const auto store = given.store.open();
    Insertion insertion(*store, given, out);
    const auto batches = given.input.open();
    Batch batch;
    while (batches->next(batch)) insertion.take(*batches, batch);
    insertion.end();
}

}  // namespace

Run define_insert(Words &words) {
    const auto given = std::make_shared<Given>();
    given->store.define(words);
    given->input.define(words);
    given->root.define(words, "insert at this root, which must be the newest");
    words.flag("--branch", given->branch, "--root may be an older root, or none: a tree of its own");
    words.flag("--resend", given->resend, "pass over batches of which all is in");
    words.flag("--no-grow", given->no_grow, "the file may not grow");
    words.flag("--quiet", given->quiet, "no receipts, only the sum of them");
    words.footer(std::string("Each batch goes in at the root that the one before led to. Its receipt is printed once it is on the disk.\n\n") +
                 kDatomsHelp);
    return [given](Output &out) { insert(*given, out); };
}

}  // namespace florin
