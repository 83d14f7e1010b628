// How a store lies in its file: format 2.
//
//     byte 0      head slot 0
//          4096   head slot 1
//          8192   extents, each of whole blocks of 4096 bytes and of one kind:
//                   pages      page p is at p * page size of the extents of its kind put together
//                   sums       a checksum of 8 bytes for each page
//                   receipts   one of 128 bytes for each batch that is in
//                   heap       long values: the library's heap is the extents of this kind put together. None while there are none
//
// The head names the extents and says how much of each kind counts. What counts is never written again and never moves: the file grows
// by further extents at its end. So whoever has read a head has a whole store as of that head, be it a reader beside a feed or a copy
// that begins at the file's first byte.
//
// A head is a slot's first words: the mark, then what struct Head has in its order, then the number of extents, two words that are zero,
// and two words for each extent: its offset, and its length plus its kind. The rest is zero up to the checksum in the slot's last word.
// The order is that of the datoms in all trees of the store, by its number in florinwick.h; 0 is that of every store before florin 0.6,
// which refuses any other by name. Parties, allowances and the second root are for stores that this florin does not make: it refuses them.
//
// A receipt is what struct Receipt has in its order, but for the checksum of its constants: the first eleven words, the checksum of the
// receipt before, the checksum of the constants, two words that are zero, and the checksum of all these words.
//
// Constants lie on the heap one behind the other, as the library appended them, and a batch's lie together: from the heap length of the
// receipt before it up to its own. So every byte of the heap that counts has the checksum of one receipt. A batch without new constants has
// 0 there, so a store without long values is one of florin 0.2 to 0.4 too; those refuse a store with any by name.
#ifndef FLORIN_STORE_FORMAT_H
#define FLORIN_STORE_FORMAT_H

#include "florinwick.hpp"

#include <optional>
#include <string>
#include <vector>

namespace florin {

constexpr char kMark[] = "FLORINW2";             // eight bytes; the last is the version of the format
constexpr char kMarkOfOne[] = "FLORINW1";
constexpr std::uint64_t kBlock = 4096;
constexpr std::uint64_t kSlotBytes = kBlock;      // a block of its own for each head
constexpr std::uint64_t kHeadsBytes = 2 * kSlotBytes;
constexpr std::uint64_t kReceiptBytes = 128;
constexpr std::uint64_t kSumBytes = 8;
constexpr std::uint64_t kMostExtents = 240;
constexpr std::uint64_t kLargestFile = std::uint64_t{1} << 62;

enum class Kind : std::uint64_t { Pages = 0, Sums = 1, Receipts = 2, Heap = 3 };
constexpr std::uint64_t kKinds = 4;

struct Extent {
    Kind kind;
    std::uint64_t offset;    // in the file; whole blocks
    std::uint64_t length;
};

// What the head says: which bytes of the file count.
struct Head {
    std::uint64_t sequence = 0;
    std::uint64_t page_size = 0;
    std::uint64_t page_count = 0;
    std::uint64_t heap_length = 0;                                   // in bytes, a multiple of 8
    florinwick::Order order = florinwick::Order::Eavt;
    std::uint64_t parties = 1;
    std::uint64_t allowances[2] = {0, 0};
    std::uint64_t roots[2] = {florinwick::none, florinwick::none};   // the newest one of each party
    std::uint64_t receipts = 0;
    std::uint64_t chain = 0;                                         // checksum of the last receipt, which covers all before it
    std::vector<Extent> extents;

    std::uint64_t root() const { return roots[0]; }
    // Behind the last extent. The file may be longer: it was cut while it grew.
    std::uint64_t end() const;
    std::uint64_t bytes_of(Kind kind) const;
    // As an extent of its own, or as more of the last one where that is of the same kind.
    void append(Kind kind, std::uint64_t length);
};

// What a batch that is in led to.
struct Receipt {
    static constexpr std::uint64_t kBack = 1;        // it was inserted at another root than the newest
    static constexpr std::uint64_t kUpgraded = 2;    // from a store of format 1, which kept no checksum of the datoms

    std::uint64_t from = florinwick::none;   // the root that it was inserted at
    std::uint64_t root = florinwick::none;
    std::uint64_t pages = 0;                 // written
    std::uint64_t page_count = 0;            // afterwards
    std::uint64_t datoms = 0;
    std::uint64_t time = 0;                  // seconds since 1970
    std::uint64_t flags = 0;
    std::uint64_t datoms_sum = 0;            // checksum of the batch, ascending in the store's order, as bytes; long_values.h has long ones
    std::uint64_t pages_sum = 0;             // checksum of the checksums of the pages written
    std::uint64_t party = 0;
    std::uint64_t heap_length = 0;           // afterwards
    std::uint64_t heap_sum = 0;              // checksum of the constants that it appended; 0 for none

    bool went_back() const { return (flags & kBack) != 0; }
    bool is_upgraded() const { return (flags & kUpgraded) != 0; }
};

bool has_mark(const std::uint8_t *slot, const char *mark);

void encode_head(const Head &head, std::uint8_t *slot);
// Nothing if the slot has not the mark or not the checksum.
std::optional<Head> decode_head(const std::uint8_t *slot);
// Why no florin of this version made such a head, for a file of this size; "" if one may have.
std::string fault_of(const Head &head, std::uint64_t file_size);
// What a newer florin has put there; "" for nothing.
std::string news_of(const Head &head);

void encode_receipt(const Receipt &receipt, std::uint64_t chain_before, std::uint8_t *at);
Receipt decode_receipt(const std::uint8_t *at);
// Each receipt has the checksum of the one before, so none can be changed, left out or moved.
std::uint64_t chain_of(const std::uint8_t *at);
bool follows(const std::uint8_t *at, std::uint64_t chain_before);
// A batch writes a page at least, and its root is one of those that it writes. The heap does not get shorter.
bool may_follow(const Receipt &receipt, const Receipt &before);

constexpr std::uint64_t rounded_up(std::uint64_t bytes) { return (bytes + kBlock - 1) / kBlock * kBlock; }

}  // namespace florin

#endif
