#include "batch_of.h"

#include "datom_text.h"
#include "held.h"
#include "walk.h"

#include <algorithm>

namespace florin {

using florinwick::Datom;

namespace {

Trouble altered(const std::string &what, std::uint64_t number, const Json &more = {}) {
    Trouble trouble{kAltered, "Altered", "batch @" + std::to_string(number) + ": " + what,
                    "run florin check --all, and restore the file from a backup.", {{"receipt", number}}};
    trouble.more.put_all(more);
    return trouble;
}

// All datoms of the pages that the batch wrote, ascending and each once.
std::vector<Datom> written_by(const StoreFile &store, const Receipt &receipt, std::uint64_t number) {
    if (!store.has_sums_of(receipt)) throw altered("the checksums of its pages are not those that its receipt speaks of.", number);
    std::vector<Datom> datoms;
    for (std::uint64_t id = receipt.page_count - receipt.pages; id < receipt.page_count; ++id) {
        const auto page = page_of(store.reader(), id);
        if (!page || !store.is_as_written(id)) {
            throw altered("page " + std::to_string(id) + " is not as it was written.", number, {{"page", id}});
        }
        for (unsigned i = 0; i < page->count(); ++i) datoms.push_back(page->datom(i));
    }
    const florinwick::HeapView heap = store.heap();
    std::sort(datoms.begin(), datoms.end(), store.by_content());
    const auto equal = [&](const Datom &a, const Datom &b) { return heap.compare(a, b) == 0; };
    datoms.erase(std::unique(datoms.begin(), datoms.end(), equal), datoms.end());
    return datoms;
}

}  // namespace

Batch batch_of(const StoreFile &store, const Receipt &receipt, std::uint64_t number) {
    Batch batch;
    batch.number = number;
    // Asked for in parts that are no larger than a batch may be.
    Batch part = batch;
    const auto take_missing = [&] {
        for (std::uint64_t at : missing_of(store.reader(), receipt.from, part)) batch.add(part.datom(at));
        part.bytes.clear();
    };
    for (const Datom &datom : written_by(store, receipt, number)) {
        part.add(datom);
        if (part.datoms() == FLORINWICK_BATCH_MAX) take_missing();
    }
    take_missing();
    if (batch.datoms() != receipt.datoms) {
        throw altered("its receipt says " + counted(receipt.datoms, "datom") + ", and " + grouped(batch.datoms()) + " are found.", number);
    }
    if (!receipt.is_upgraded() && batch.sum(store.heap()) != receipt.datoms_sum) {
        throw altered("its datoms have not the checksum that its receipt has.", number);
    }
    return batch;
}

}  // namespace florin
