#include "commands/command.h"
#include "commands/options.h"
#include "datom_text.h"
#include "held.h"

#include <cstdio>

namespace florin {

namespace {

struct Given {
    StoreToRead store;
    InputOptions input;
    RootOption root;
};

void missing(const Given &given, Output &out) {
    const auto store = given.store.open();
    const std::uint64_t root = given.root.of(*store);
    const auto batches = given.input.open();
    std::uint64_t datoms = 0, missed = 0;
    Batch batch;
    while (batches->next(batch)) {
        datoms += batch.datoms();
        store->put_aside(batch);
        if (given.input.sort) batch.sort(store->by_content());
        Batch rest;
        for (std::uint64_t at : missing_of(store->reader(), root, batch)) rest.add(batch.datom(at));
        missed += rest.datoms();
        if (rest.bytes.empty()) continue;
        const std::string text = batch_text(rest, given.input.form.form(), store->heap());
        if (!out.json()) {
            std::fwrite(text.data(), 1, text.size(), stdout);
        } else {
            for (std::uint64_t i = 0; i < rest.datoms(); ++i) out.tell("", datom_json(rest.datom(i), store->heap(), batch.number));
        }
        out.flush();
    }
    std::fprintf(stderr, "florin: %s of %s missing at root %s\n", grouped(missed).c_str(), counted(datoms, "datom").c_str(), page_text(root).c_str());
}

}  // namespace

Run define_missing(Words &words) {
    const auto given = std::make_shared<Given>();
    given->store.define(words);
    given->input.define(words);
    given->root.define(words, "missing at this root; the newest if not given");
    words.footer(std::string("What is printed is an input for florin insert: the rest of each batch, in the form of the input.\n\n") + kDatomsHelp);
    return [given](Output &out) { missing(*given, out); };
}

}  // namespace florin
