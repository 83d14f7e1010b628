#include "commands/command.h"
#include "commands/options.h"
#include "datom_text.h"

namespace florin {

namespace {

struct Given {
    StoreToRead store;
    std::string copy;
};

void backup(const Given &given, Output &out) {
    const auto store = given.store.open();
    store->copy_to(given.copy);
    const Head &head = store->head();
    out.tell("copied " + given.store.path + " to " + given.copy + ": " + counted(head.receipts, "batch") + ", " +
                 counted(head.page_count, "page") + ", root " + page_text(head.root()),
             {{"copied", given.store.path}, {"to", given.copy}, {"batches", head.receipts}, {"pages", head.page_count},
              {"root", page_json(head.root())}, {"heap_bytes", head.heap_length}});
}

}  // namespace

Run define_backup(Words &words) {
    const auto given = std::make_shared<Given>();
    given->store.define(words);
    words.word("NEW", given->copy, "the copy's file; none may stand there");
    words.footer("The copy is the store as of one moment, whole, with every root up to then. A writer is not held up. Every page and\n"
               "every long value is compared with its checksum on the way; a copy of a damaged one is not made.\n");
    return [given](Output &out) { backup(*given, out); };
}

}  // namespace florin
