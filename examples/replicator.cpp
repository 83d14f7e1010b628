// A replicator that loses its line: a feed of fills, a failover, what is in doubt sent again in batches that are cut elsewhere, and the
// receipts that tell what became of each.
//
// The store lies in memory here; tools/florin keeps one in a file.
#include "florinwick.hpp"

#include <algorithm>
#include <cstdio>
#include <cstdlib>
#include <vector>

using florinwick::Answer;
using florinwick::Datom;
using florinwick::Number;
using florinwick::Span;
using florinwick::Value;

namespace {

// Attributes of a fill. The entity is its order.
enum Attribute : std::uint64_t { kSymbol = 1, kPrice = 2, kQuantity = 3, kText = 4 };

const std::uint64_t kPageSize = 4096;

struct Fill {
    std::uint64_t report;   // the venue's number of it
    std::uint64_t order;
    const char *symbol;
    std::uint64_t price;
    std::uint64_t quantity;
    const char *text;       // of the order; of any length
};

// What the venue reported, in the order in which it did.
const Fill kFeed[] = {
    {1, 7001, "FGBL", 13142, 10, "limit"},       {2, 7002, "FGBL", 13143, 5, "limit"},
    {3, 7003, "FDAX", 18220, 1, "at market"},    {4, 7004, "FESX", 4988, 40, "iceberg, 10 shown"},
    {5, 7005, "FGBL", 13141, 8, "limit"},        {6, 7006, "FDAX", 18221, 2, "at market"},
    {7, 7007, "FGBM", 11804, 25, "good till cancelled, for account 4711"},
    {8, 7008, "FESX", 4987, 30, "iceberg, 10 shown"}, {9, 7009, "FGBL", 13144, 3, "limit"},
};

// A text or an integer of any size. What does not fit into the datom lies on the store's heap: this one is given as much as the day needs.
template <class Content>
Value value_of(florinwick::Store &store, const Content &content) {
    const florinwick::Put put = store.put(content);
    if (!put) std::abort();
    return put.value;
}

// Four datoms for each fill; they rise by entity and attribute, as they are written here. The transaction is made of the venue's number
// and of nothing that a replicator chooses: a fill that is sent again must be the same datoms, wherever its batch is cut. A text that is put
// again lies in another place of the heap, and is the same value: values are compared by content.
std::vector<Datom> datoms_of(florinwick::Store &store, Span<const Fill> fills) {
    std::vector<Datom> datoms;
    for (const Fill &fill : fills) {
        const std::uint64_t transaction = 2 * fill.report;   // even, so there is a datom
        datoms.push_back(*Datom::asserted(fill.order, kSymbol, value_of(store, fill.symbol), transaction));
        datoms.push_back(*Datom::asserted(fill.order, kPrice, value_of(store, fill.price), transaction));
        datoms.push_back(*Datom::asserted(fill.order, kQuantity, value_of(store, fill.quantity), transaction));
        datoms.push_back(*Datom::asserted(fill.order, kText, value_of(store, fill.text), transaction));
    }
    return datoms;
}

bool is_done(const Answer &answer) {
    if (answer.done()) {
        std::printf("Done, root %llu, %llu pages written\n", static_cast<unsigned long long>(answer.root),
                    static_cast<unsigned long long>(answer.pages));
    } else {
        std::printf("%s (%d), datom %llu; root %llu stays\n", answer.name(), static_cast<int>(answer.number),
                    static_cast<unsigned long long>(answer.detail), static_cast<unsigned long long>(answer.root));
    }
    return answer.done();
}

// The datoms of a batch that the tree does not hold: each answer names the first of what is left. False if one is refused.
bool find_rest(const florinwick::Reader &reader, std::uint64_t root, Span<const Datom> batch, std::vector<Datom> &rest) {
    for (Answer answer = reader.held(root, batch); !answer.done(); answer = reader.held(root, batch)) {
        if (answer.number != Number::NotHeld) return false;
        rest.push_back(batch[answer.detail]);
        batch = batch.from(answer.detail + 1);
    }
    return true;
}

// The one place where a batch is sent, the first time and every time again. True once the tree holds every datom of it.
bool send(florinwick::Store &store, Span<const Fill> fills) {
    const std::vector<Datom> batch = datoms_of(store, fills);
    std::printf("fills %llu to %llu: ", static_cast<unsigned long long>(fills[0].report),
                static_cast<unsigned long long>(fills[fills.size() - 1].report));
    const Answer answer = store.insert(batch);
    if (is_done(answer)) return true;
    if (answer.number != Number::Repeated) return false;

    // Repeated says that the tree holds one datom of the batch. It does not say that it holds the others.
    std::vector<Datom> rest;
    if (!find_rest(store.reader(), store.root(), batch, rest)) return false;
    if (rest.empty()) {
        std::puts("  The tree holds all of it.");
        return true;
    }
    std::printf("  The tree holds %zu of its %zu datoms. The rest: ", batch.size() - rest.size(), batch.size());
    return is_done(store.insert(rest));
}

// A part of the feed in batches of so many fills.
bool send_all(florinwick::Store &store, Span<const Fill> fills, std::size_t fills_in_batch) {
    for (; !fills.empty(); fills = fills.from(std::min(fills_in_batch, fills.size()))) {
        if (!send(store, fills.first(std::min(fills_in_batch, fills.size())))) return false;
    }
    return true;
}

// Sums the quantity of one symbol's orders, as the position clerk would. False if the listing was refused.
bool position_of(const florinwick::Reader &reader, std::uint64_t root, const char *symbol, std::uint64_t &position) {
    bool is_symbol = false;
    position = 0;
    florinwick::Listing listing = reader.list(root);
    for (const Datom &datom : listing) {
        if (datom.attribute == kSymbol) is_symbol = datom.value == Value::text(symbol);
        if (datom.attribute == kQuantity && is_symbol) position += datom.value.as_integer().value_or(0);
    }
    // The loop ends at a refusal too. A sum over half a listing is no position.
    return listing.ended();
}

bool print_position(const florinwick::Reader &reader, std::uint64_t root, const char *what) {
    std::uint64_t position;
    if (!position_of(reader, root, "FGBL", position)) return false;
    std::printf("FGBL %s (root %llu): %llu\n", what, static_cast<unsigned long long>(root), static_cast<unsigned long long>(position));
    return true;
}

// The text of an order as the tree has it, for as long as the heap is there.
bool print_text(const florinwick::Reader &reader, std::uint64_t root, std::uint64_t order) {
    florinwick::Listing listing = reader.list(root, {order, kText, Value{}, 0}, {order, kText, Value::max(), 0});
    for (const Datom &datom : listing) {
        const auto text = reader.heap().text_of(datom.value);
        if (!text) return false;
        std::printf("The text of order %llu: %.*s\n", static_cast<unsigned long long>(order), static_cast<int>(text->size()), text->view().data());
    }
    return listing.ended();
}

// Whether the tree has what the feed has: every fill, each once.
bool has_all(florinwick::Store &store) {
    const std::vector<Datom> all = datoms_of(store, kFeed);
    florinwick::Listing listing = store.reader().list(store.root());
    const auto is_same = [&](const Datom &a, const Datom &b) { return store.heap().compare(a, b) == 0; };
    return std::equal(listing.begin(), listing.end(), all.begin(), all.end(), is_same) && listing.ended();
}

}  // namespace

int main() {
    std::vector<std::uint8_t> bytes(64 * kPageSize), heap(4096);
    std::vector<std::uint8_t> scratch(florinwick::Store::scratch_need(kPageSize));
    florinwick::Store store(bytes, heap, {kPageSize}, scratch);
    const Span<const Fill> feed(kFeed);

    std::puts("The first replicator sends three fills at a time. The line breaks before it hears of its second batch.");
    if (!send_all(store, feed.first(6), 3)) return 1;
    const std::uint64_t root_at_failover = store.root();

    std::puts("The second one knows of the first batch alone. It sends all that follows, two fills at a time.");
    if (!send_all(store, feed.from(3), 2)) return 1;

    const florinwick::Reader reader = store.reader();
    if (!print_position(reader, root_at_failover, "at the failover") || !print_position(reader, store.root(), "now")) return 1;
    if (!print_text(reader, store.root(), 7007)) return 1;
    if (!has_all(store) || !reader.check(store.root())) return 1;
    std::puts("Every fill is there once, and every page is sound.");
    return 0;
}
