#include "heap_parts.h"

#include "checksum.h"

#include <algorithm>

namespace florin {

using florinwick::ByteView;
using florinwick::Value;

HeapParts::HeapParts(const florinwick::HeapView &heap, ByteView bytes, const std::vector<Receipt> &receipts) : heap_(heap) {
    std::uint64_t begin = 0;
    for (const Receipt &receipt : receipts) {
        const std::uint64_t end = receipt.heap_length;
        altered_.push_back(end > begin && checksum(bytes.data() + begin, static_cast<std::size_t>(end - begin)) != receipt.heap_sum);
        has_altered_ = has_altered_ || altered_.back();
        ends_.push_back(end);
        begin = end;
    }
}

std::uint64_t HeapParts::first_altered() const {
    const auto found = std::find(altered_.begin(), altered_.end(), true);
    return found == altered_.end() ? 0 : static_cast<std::uint64_t>(found - altered_.begin()) + 1;
}

// A constant may lie in several parts: a binary batch names any place where one can be read. Of one that cannot be read any more the first
// byte is looked at.
std::uint64_t HeapParts::altered_under(Value value) const {
    if (!has_altered_ || !value.names_constant()) return 0;
    const std::uint64_t begin = value.offset(), end = begin + std::max<std::uint64_t>(heap_.constant_of(value).size(), 1);
    auto part = static_cast<std::size_t>(std::upper_bound(ends_.begin(), ends_.end(), begin) - ends_.begin());
    for (; part < ends_.size() && begin_of(part + 1) < end; ++part) {
        if (altered_[part]) return part + 1;
    }
    return 0;
}

std::uint64_t HeapParts::altered_under(const PageView &page) const {
    for (unsigned i = 0; has_altered_ && i < page.count(); ++i) {
        if (const std::uint64_t batch = altered_under(page.datom(i).value)) return batch;
    }
    return 0;
}

}  // namespace florin
