#include "store_format.h"

#include "checksum.h"
#include "datom_text.h"

#include <algorithm>
#include <cstring>

namespace florin {

using florinwick::get_word;
using florinwick::put_word;

namespace {

constexpr int kHeadWords = 13;                       // the mark and the words behind it, up to the number of extents
constexpr std::uint64_t kExtentsAt = 16 * 8;
constexpr std::uint64_t kSumAt = kSlotBytes - 8;
static_assert(kExtentsAt + 16 * kMostExtents <= kSumAt, "the extents fit into a slot");

std::uint64_t word_at(const std::uint8_t *slot, int at) { return get_word(slot + 8 * at); }

}  // namespace

std::uint64_t Head::end() const {
    std::uint64_t end = kHeadsBytes;
    for (const Extent &extent : extents) end = std::max(end, extent.offset + extent.length);
    return end;
}

std::uint64_t Head::bytes_of(Kind kind) const {
    std::uint64_t bytes = 0;
    for (const Extent &extent : extents) bytes += extent.kind == kind ? extent.length : 0;
    return bytes;
}

void Head::append(Kind kind, std::uint64_t length) {
    if (length == 0) return;
    if (!extents.empty() && extents.back().kind == kind && extents.back().offset + extents.back().length == end()) {
        extents.back().length += length;
    } else {
        extents.push_back({kind, end(), length});
    }
}

bool has_mark(const std::uint8_t *slot, const char *mark) { return std::memcmp(slot, mark, 8) == 0; }

void encode_head(const Head &head, std::uint8_t *slot) {
    std::memset(slot, 0, kSlotBytes);
    std::memcpy(slot, kMark, 8);
    const std::uint64_t order = static_cast<std::uint64_t>(head.order);
    const std::uint64_t words[] = {head.sequence, head.page_size, head.page_count, head.heap_length, order, head.parties, head.allowances[0],
                                   head.allowances[1], head.roots[0], head.roots[1], head.receipts, head.chain, head.extents.size()};
    static_assert(sizeof words / sizeof words[0] == kHeadWords, "every word has its place");
    for (int i = 0; i < kHeadWords; ++i) put_word(slot + 8 + 8 * i, words[i]);
    std::uint8_t *at = slot + kExtentsAt;
    for (const Extent &extent : head.extents) {
        put_word(at, extent.offset);
        put_word(at + 8, extent.length + static_cast<std::uint64_t>(extent.kind));
        at += 16;
    }
    put_word(slot + kSumAt, checksum(slot, kSumAt));
}

std::optional<Head> decode_head(const std::uint8_t *slot) {
    if (!has_mark(slot, kMark) || get_word(slot + kSumAt) != checksum(slot, kSumAt)) return std::nullopt;
    Head head;
    std::uint64_t order = 0, extents = 0;
    std::uint64_t *const words[] = {&head.sequence,      &head.page_size,     &head.page_count, &head.heap_length, &order,
                                    &head.parties,       &head.allowances[0], &head.allowances[1], &head.roots[0], &head.roots[1],
                                    &head.receipts,      &head.chain,         &extents};
    for (int i = 0; i < kHeadWords; ++i) *words[i] = word_at(slot, i + 1);
    head.order = static_cast<florinwick::Order>(order);
    extents = std::min(extents, kMostExtents + 1);
    for (std::uint64_t i = 0; i < std::min(extents, kMostExtents); ++i) {
        const std::uint8_t *at = slot + kExtentsAt + 16 * i;
        const std::uint64_t length = get_word(at + 8);
        head.extents.push_back({static_cast<Kind>(length % kBlock), get_word(at), length - length % kBlock});
    }
    // More than there is place for: told as a fault, by an extent that no file has.
    if (extents > kMostExtents) head.extents.push_back({Kind::Pages, kLargestFile, kBlock});
    return head;
}

std::string news_of(const Head &head) {
    const std::uint64_t order = static_cast<std::uint64_t>(head.order);
    if (!florinwick::order_of(order)) return "an unknown order, number " + std::to_string(order);
    if (head.parties != 1 || head.allowances[0] != 0 || head.allowances[1] != 0 || head.roots[1] != florinwick::none) return "two parties";
    for (const Extent &extent : head.extents) {
        if (static_cast<std::uint64_t>(extent.kind) >= kKinds) return "a part of an unknown kind";
    }
    return "";
}

namespace {

std::string fault_of_extents(const Head &head) {
    for (const Extent &extent : head.extents) {
        if (extent.offset < kHeadsBytes || extent.offset % kBlock != 0 || extent.length == 0 || extent.offset >= kLargestFile ||
            extent.length > kLargestFile - extent.offset) {
            return "a part of it cannot lie at byte " + std::to_string(extent.offset);
        }
    }
    std::vector<Extent> sorted = head.extents;
    std::sort(sorted.begin(), sorted.end(), [](const Extent &a, const Extent &b) { return a.offset < b.offset; });
    for (std::size_t i = 1; i < sorted.size(); ++i) {
        if (sorted[i - 1].offset + sorted[i - 1].length > sorted[i].offset) {
            return "two parts of it share byte " + std::to_string(sorted[i].offset);
        }
    }
    return "";
}

}  // namespace

std::string fault_of(const Head &head, std::uint64_t file_size) {
    if (florinwick_scratch_need(head.page_size) == 0) return "its page size is " + std::to_string(head.page_size);
    if (const std::string fault = fault_of_extents(head); !fault.empty()) return fault;
    if (head.end() > file_size) return "";   // told by the caller: the file is cut short
    if (head.page_count > head.bytes_of(Kind::Pages) / head.page_size || head.page_count > head.bytes_of(Kind::Sums) / kSumBytes) {
        return "it counts " + grouped(head.page_count) + " pages, more than the file holds";
    }
    if (head.receipts > head.bytes_of(Kind::Receipts) / kReceiptBytes) {
        return "it counts " + grouped(head.receipts) + " receipts, more than the file holds";
    }
    if (head.heap_length > head.bytes_of(Kind::Heap)) {
        return "it counts " + grouped(head.heap_length) + " bytes of long values, more than the file holds";
    }
    if (head.heap_length % 8 != 0) return "its long values have " + grouped(head.heap_length) + " bytes, no multiple of 8";
    if (head.root() != florinwick::none && head.root() >= head.page_count) {
        return "its root is page " + std::to_string(head.root()) + " of " + grouped(head.page_count);
    }
    return "";
}

namespace {

constexpr int kReceiptWords = 15;   // the checksum is the sixteenth
constexpr int kChainAt = 11;        // which word has the checksum of the receipt before
constexpr int kHeapSumAt = 12;      // and which that of the constants; those behind it are zero

}  // namespace

void encode_receipt(const Receipt &receipt, std::uint64_t chain_before, std::uint8_t *at) {
    const std::uint64_t words[kReceiptWords] = {receipt.from,  receipt.root,       receipt.pages,     receipt.page_count,
                                                receipt.datoms, receipt.time,      receipt.flags,     receipt.datoms_sum,
                                                receipt.pages_sum, receipt.party, receipt.heap_length, chain_before,
                                                receipt.heap_sum};
    for (int i = 0; i < kReceiptWords; ++i) put_word(at + 8 * i, words[i]);
    put_word(at + 8 * kReceiptWords, checksum(at, 8 * kReceiptWords));
}

Receipt decode_receipt(const std::uint8_t *at) {
    Receipt receipt;
    std::uint64_t *const words[kChainAt] = {&receipt.from,      &receipt.root,  &receipt.pages,      &receipt.page_count,
                                            &receipt.datoms,    &receipt.time,  &receipt.flags,      &receipt.datoms_sum,
                                            &receipt.pages_sum, &receipt.party, &receipt.heap_length};
    for (int i = 0; i < kChainAt; ++i) *words[i] = word_at(at, i);
    receipt.heap_sum = word_at(at, kHeapSumAt);
    return receipt;
}

std::uint64_t chain_of(const std::uint8_t *at) { return word_at(at, kReceiptWords); }

bool follows(const std::uint8_t *at, std::uint64_t chain_before) {
    return word_at(at, kChainAt) == chain_before && chain_of(at) == checksum(at, 8 * kReceiptWords);
}

bool may_follow(const Receipt &receipt, const Receipt &before) {
    const std::uint64_t pages = receipt.page_count - before.page_count;
    return receipt.page_count > before.page_count && receipt.pages == pages && receipt.root >= before.page_count &&
           receipt.root < receipt.page_count && receipt.heap_length >= before.heap_length && receipt.heap_length % 8 == 0;
}

}  // namespace florin
