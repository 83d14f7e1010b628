// Document 01's examples c, e, f, g and h with an array of records, as a C++ program has them, datoms with long values, and a store of each
// order: each call also with the bytes of the same datoms, on a store of its own. Says nothing if all is as it should be.
#include "florinwick.h"

#include <array>
#include <cstddef>
#include <cstdint>
#include <cstdio>
#include <vector>

namespace {

static_assert(sizeof(florinwick_datom) == FLORINWICK_DATOM_BYTES, "a record is four words");

constexpr std::uint64_t page_size = 256;

int failures = 0;

void expect(const char *name, bool holds) {
    if (holds) return;
    std::printf("%s\n", name);
    ++failures;
}

florinwick_datom d(std::uint64_t k) { return {k, 1, k, 3}; }

std::vector<florinwick_datom> run(std::uint64_t from, std::uint64_t count) {
    std::vector<florinwick_datom> records;
    for (std::uint64_t k = from; k < from + count; ++k) records.push_back(d(k));
    return records;
}

void put(std::vector<std::uint8_t> &bytes, std::uint64_t word) {
    for (int i = 0; i < 8; ++i) bytes.push_back(static_cast<std::uint8_t>(word >> (8 * i)));
}

std::vector<std::uint8_t> bytes_of(const std::vector<florinwick_datom> &records) {
    std::vector<std::uint8_t> bytes;
    // No bytes are still at an address.
    bytes.reserve(1);
    for (const florinwick_datom &record : records) {
        for (std::uint64_t word : {record.entity, record.attribute, record.value, record.transaction_operation}) put(bytes, word);
    }
    return bytes;
}

struct Stores {
    std::vector<std::uint8_t> by_records = std::vector<std::uint8_t>(64 * page_size);
    std::vector<std::uint8_t> by_bytes = by_records;
    std::vector<std::uint8_t> scratch = std::vector<std::uint8_t>(florinwick_scratch_need(page_size));
    std::vector<std::uint8_t> heap = std::vector<std::uint8_t>(64);
    std::uint64_t heap_length = 0;
    std::uint64_t count = 0;
    std::uint64_t order = FLORINWICK_EAVT;
    std::uint64_t root = FLORINWICK_NONE;

    // The value word that names a string of more than seven bytes.
    std::uint64_t append(const std::vector<std::uint8_t> &text) {
        std::array<std::uint8_t, 32> told{};
        const std::uint64_t number =
            florinwick_append_bytes(heap.data(), heap.size(), heap_length, text.data(), text.size(), told.data(), told.size());
        expect("append", number == FLORINWICK_DONE && told[15] >= 0xc0);
        const std::uint64_t word = (std::uint64_t{3} << 62) | heap_length;
        for (unsigned i = 0; i < 8; ++i) expect("the word", told[8 + i] == static_cast<std::uint8_t>(word >> (8 * i)));
        heap_length += told[16];
        return word;
    }

    // The store's record: page size, page count, heap length, order.
    std::vector<std::uint8_t> record() const {
        std::vector<std::uint8_t> bytes;
        for (std::uint64_t word : {page_size, count, heap_length, order}) put(bytes, word);
        return bytes;
    }

    // The number, root, pages and index of a call that both entries must answer alike.
    void insert(const char *name, const std::vector<florinwick_datom> &records, std::array<std::uint8_t, 4> expected) {
        std::array<std::uint8_t, 32> told{}, told_of_bytes{};
        const std::vector<std::uint8_t> bytes = bytes_of(records), record = this->record();
        const std::uint64_t number =
            florinwick_insert_records(by_records.data(), by_records.size(), heap.data(), heap.size(), record.data(), record.size(), root,
                                      records.data(), records.size(), scratch.data(), scratch.size(), told.data(), told.size());
        florinwick_insert(by_bytes.data(), by_bytes.size(), heap.data(), heap.size(), record.data(), record.size(), root, bytes.data(),
                          bytes.size(), scratch.data(), scratch.size(), told_of_bytes.data(), told_of_bytes.size());
        expect(name, told == told_of_bytes && by_records == by_bytes && number == expected[0]);
        for (std::size_t i = 0; i < 4; ++i) expect(name, told[8 * i] == expected[i]);
        if (number == FLORINWICK_DONE) {
            root = told[8];
            count += told[16];
        }
    }
};

// Three datoms, each pair of which the orders tell apart in another way: in the one order that is given they rise.
void in_order(const char *name, std::uint64_t order, const std::vector<florinwick_datom> &rising) {
    for (const std::uint64_t said : {FLORINWICK_EAVT, FLORINWICK_AEVT, FLORINWICK_AVET}) {
        Stores stores;
        stores.order = said;
        std::array<std::uint8_t, 32> told{};
        const std::vector<std::uint8_t> record = stores.record();
        const std::uint64_t number =
            florinwick_insert_records(stores.by_records.data(), stores.by_records.size(), stores.heap.data(), stores.heap.size(), record.data(),
                                      record.size(), FLORINWICK_NONE, rising.data(), rising.size(), stores.scratch.data(),
                                      stores.scratch.size(), told.data(), told.size());
        expect(name, (number == FLORINWICK_DONE) == (said == order));
        expect(name, said == order || number == FLORINWICK_OUT_OF_ORDER);
    }
}

}  // namespace

static_assert(sizeof(florinwick_record) == FLORINWICK_RECORD_BYTES, "a record of the store is four words");

int main() {
    Stores stores;
    stores.insert("c", run(0, 7), {0, 2, 3, 0});
    stores.insert("e", run(7, 5), {0, 3, 1, 0});
    stores.insert("f", run(12, 1), {0, 6, 3, 0});
    stores.insert("g", run(12, 1), {FLORINWICK_REPEATED, 6, 0, 0});
    stores.insert("129 records", run(1000, 129), {FLORINWICK_TOO_MANY, 6, 0, 0});
    // An empty array is still at an address.
    std::vector<florinwick_datom> none(1);
    none.pop_back();
    stores.insert("h", none, {0, 7, 1, 0});
    // Two texts of equal content at two offsets are one datom.
    const std::vector<std::uint8_t> text{'a', 't', ' ', 'm', 'a', 'r', 'k', 'e', 't'};
    const std::uint64_t one = stores.append(text), other = stores.append(text);
    stores.insert("a long value", {{20, 1, one, 3}}, {0, 8, 1, 0});
    stores.insert("the same at another offset", {{20, 1, other, 3}}, {FLORINWICK_REPEATED, 8, 0, 0});
    stores.insert("no constant", {{20, 1, 5, 3}, {21, 1, one + 8, 3}}, {FLORINWICK_BAD_CONSTANT, 8, 0, 1});
    in_order("eavt", FLORINWICK_EAVT, {{1, 3, 1, 3}, {2, 2, 2, 3}, {3, 1, 3, 3}});
    in_order("aevt", FLORINWICK_AEVT, {{3, 1, 3, 3}, {1, 2, 2, 3}, {2, 2, 1, 3}});
    in_order("avet", FLORINWICK_AVET, {{3, 1, 3, 3}, {2, 2, 1, 3}, {1, 2, 2, 3}});
    stores.order = 3;
    stores.insert("no such order", run(1000, 129), {FLORINWICK_BAD_ORDER, 8, 0, 0});
    return failures == 0 ? 0 : 1;
}
