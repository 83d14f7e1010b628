#include "commands/command.h"
#include "commands/options.h"
#include "datom_text.h"
#include "draw.h"
#include "fault_words.h"

#include <cstdio>

namespace florin {

namespace {

struct Given {
    StoreToRead store;
    std::string page;
};

void page(const Given &given, Output &out) {
    if (out.json()) throw usage_trouble("florin page has no --json");
    const auto store = given.store.open();
    const std::uint64_t id = given.page == "none" ? florinwick::none : number_word(given.page, "page");
    const florinwick::Reader reader = store->reader();
    const florinwick::Answer answer = reader.refusal(id);
    if (!answer.done()) throw refusal(answer, "page " + page_text(id) + " of " + grouped(reader.page_count()));
    draw_page(stdout, PageView(id, reader.fetch(id)), reader.heap());
    if (const auto fault = broken_rule_of(reader, id)) out.text("its fault is " + fault_text(*fault));
    const char *altered = store->is_as_written(id) ? "" : "; it is not as it was written";
    out.text("at byte " + std::to_string(store->offset_of(id)) + " of " + store->path() + altered);
}

}  // namespace

Run define_page(Words &words) {
    const auto given = std::make_shared<Given>();
    given->store.define_with_salvage(words);
    words.word("PAGE", given->page, "its number");
    words.footer("A page that breaks a rule by itself is shown with its fault: florin check --help has their names.\n");
    return [given](Output &out) { page(*given, out); };
}

}  // namespace florin
