// The heap of a store by the batches that appended to it: each has the checksum of its part in its receipt.
#ifndef FLORIN_HEAP_PARTS_H
#define FLORIN_HEAP_PARTS_H

#include "page_view.h"
#include "store_format.h"

#include <optional>
#include <vector>

namespace florin {

class HeapParts {
public:
    // Compares every part with its checksum.
    HeapParts(const florinwick::HeapView &heap, florinwick::ByteView bytes, const std::vector<Receipt> &receipts);

    // The first batch, from 1 on, whose constants are not as they were written; 0 if all are.
    std::uint64_t first_altered() const;
    bool is_altered(std::uint64_t batch) const { return altered_[batch - 1]; }
    std::uint64_t begin_of(std::uint64_t batch) const { return batch == 1 ? 0 : ends_[batch - 2]; }
    std::uint64_t end_of(std::uint64_t batch) const { return ends_[batch - 1]; }
    // The batch whose altered constants a value names, be it in part; 0 if it names none that are altered.
    std::uint64_t altered_under(florinwick::Value value) const;
    // The same of a page that can be shown: of the first such datom in it.
    std::uint64_t altered_under(const PageView &page) const;

private:
    florinwick::HeapView heap_;
    std::vector<std::uint64_t> ends_;     // by batch
    std::vector<bool> altered_;
    bool has_altered_ = false;
};

}  // namespace florin

#endif
