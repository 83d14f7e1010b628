#include "commands/command.h"
#include "commands/options.h"
#include "datom_text.h"
#include "order_text.h"
#include "walk.h"

namespace florin {

namespace {

std::string percent(std::uint64_t part, std::uint64_t whole) { return whole == 0 ? "0 %" : std::to_string(part * 100 / whole) + " %"; }

struct Row {
    const char *name;
    std::string text;
};

void print_rows(const std::vector<Row> &rows, Output &out) {
    for (const Row &row : rows) out.text(std::string(row.name) + std::string(12 - std::string(row.name).size(), ' ') + row.text);
}

void print_levels(const Shape &shape, std::uint64_t capacity, Output &out) {
    for (unsigned level = shape.height(); level-- > 0;) {
        out.text("  level " + std::to_string(level) + "   " + counted(shape.pages[level], "page") + " with " +
                 counted(shape.filled[level], "datom") + ", " + percent(shape.filled[level], capacity * shape.pages[level]) + " full");
    }
}

Json levels_json(const Shape &shape) {
    std::vector<Json> levels;
    for (unsigned level = 0; level < shape.height(); ++level) {
        levels.push_back({{"level", level}, {"pages", shape.pages[level]}, {"datoms", shape.filled[level]}});
    }
    return Json::array(levels);
}

void stat(const StoreToRead &given, Output &out) {
    const auto store = given.open();
    const Head &head = store->head();
    const Shape shape = Shape::of(store->reader(), head.root());
    const std::uint64_t reached = pages_under(store->reader(), head.root()).size(), older = head.page_count - reached;
    if (out.json()) {
        out.tell("", {{"store", given.path}, {"bytes", store->file_size()}, {"page_size", head.page_size},
                      {"order", order_name(head.order)}, {"pages", head.page_count}, {"free_pages", store->free_pages()},
                      {"root", page_json(head.root())}, {"batches", head.receipts}, {"datoms", shape.datoms()}, {"pending", shape.pending},
                      {"height", shape.height()}, {"levels", levels_json(shape)}, {"pages_of_older_roots", older},
                      {"heap_bytes", head.heap_length}});
        return;
    }
    print_rows({{"store", given.path + ", " + counted(store->file_size(), "byte")},
                {"page size", std::to_string(head.page_size) + " bytes"},
                {"order", order_name(head.order) + ": by " + order_text(head.order)},
                {"pages", grouped(head.page_count) + " in use, room for " + grouped(store->free_pages()) + " more before the file grows"},
                {"root", page_text(head.root())},
                {"batches", grouped(head.receipts)},
                {"datoms", grouped(shape.datoms()) + ", " + grouped(shape.pending) + " of them pending"},
                {"height", counted(shape.height(), "level")}},
               out);
    print_levels(shape, PageView::capacity_of(head.page_size), out);
    print_rows({{"older", counted(older, "page") + " that only older roots reach"}}, out);
    if (head.heap_length > 0) {
        print_rows({{"long values", counted(head.heap_length, "byte") + ", room for " + grouped(store->free_heap()) + " more before the file grows"}},
                   out);
    }
    if (shape.lost > 0) print_rows({{"lost", counted(shape.lost, "child") + " cannot be followed: run florin check"}}, out);
}

}  // namespace

Run define_stat(Words &words) {
    const auto given = std::make_shared<StoreToRead>();
    given->define_with_salvage(words);
    return [given](Output &out) { stat(*given, out); };
}

}  // namespace florin
