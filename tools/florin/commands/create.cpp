#include "commands/command.h"
#include "commands/options.h"
#include "datom_text.h"
#include "order_text.h"

namespace florin {

namespace {

struct Given {
    std::string path, from;
    std::uint64_t page_size = 4096, room = 64;
    std::string order = "eavt";
    FormOption form;
    bool last_batch_open = false;
};

// The one batch of a file. Empty if there is no datom in it.
Batch first_batch(const Given &given) {
    Batches batches(given.from, given.form.form(), {0, given.last_batch_open});
    Batch batch, another;
    if (!batches.next(batch)) return {};
    if (batches.next(another)) throw usage_trouble("--from takes one batch, and " + given.from + " has more; create the store, then insert them");
    return batch;
}

void create(const Given &given, Output &out) {
    if (given.form.binary && given.from.empty()) throw usage_trouble("--binary goes with --from");
    Batch batch = given.from.empty() ? Batch{} : first_batch(given);
    const florinwick::Order order = order_named(given.order);
    const florinwick::Answer answer = StoreFile::create(given.path, {given.page_size, order, given.room}, batch);
    if (!answer.done()) {
        const bool of_datom = answer.carries() == florinwick::Carries::Index;
        throw refusal(answer, of_datom ? batch.place_of(answer.detail, {}) : "", order);
    }
    std::string text = "created " + given.path + ", pages of " + std::to_string(given.page_size) + " bytes" + order_note(order);
    Json object = {{"created", given.path}, {"page_size", given.page_size}, {"order", order_name(order)}};
    if (!batch.bytes.empty()) {
        text += "; its first batch is in: " + counted(batch.datoms(), "datom") + ", " + counted(answer.pages, "page") + " written, root " +
                page_text(answer.root);
        object.put_all({{"datoms", batch.datoms()}, {"pages", answer.pages}, {"root", page_json(answer.root)}});
    } else if (!given.from.empty()) {
        text += "; " + given.from + " has no datoms, so no batch is in";
    }
    out.tell(text, object);
}

}  // namespace

Run define_create(Words &words) {
    const auto given = std::make_shared<Given>();
    words.word("STORE", given->path, "the file to make; none may stand there");
    words.number("--page-size", given->page_size, "BYTES", page_sizes_text() + "; 4096 if not given");
    words.one_of("--order", given->order, "ORDER", order_names(), order_names_text() + ", as below; eavt if not given");
    words.number("--room", given->room, "PAGES", "room for so many at first; the file grows by itself");
    words.text("--from", given->from, "FILE", "its first batch, in any order");
    given->form.define(words, "FILE is binary");
    words.flag("--last-batch-open", given->last_batch_open, "the end of FILE ends the batch too");
    words.footer(std::string("The order stays. It is that of every tree of the store: batches rise in it, and listings go by it.\n"
                             "\n"
                             "  eavt    by entity, attribute, value, transaction: all of one entity\n"
                             "  aevt    by attribute, entity, value, transaction: one attribute of all entities\n"
                             "  avet    by attribute, value, entity, transaction: the entities with a value, or with one between two\n"
                             "\n") +
                 kDatomsHelp);
    return [given](Output &out) { create(*given, out); };
}

}  // namespace florin
