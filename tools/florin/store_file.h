// A store in a file that is mapped into memory; store_format.h says how it lies there.
//
// How a cut of the power loses nothing that was accepted and shows nothing half in:
//   1. The library writes pages past the page count and constants past the heap length only, so whatever the head counts as in use is
//      never written again.
//   2. The batch's constants are synced to the disk first, if it has new ones, then the pages that name them, the pages' checksums and the
//      batch's receipt. No head speaks of any of them yet.
//   3. Then the head, with the new page count, heap length and root, is written into the slot that the present head is not in, and synced.
//   4. Only then is the batch told to be in.
// A head has a sequence number and a checksum; opening takes the valid slot with the higher number. A cut before 3 leaves the old head,
// a cut within 3 leaves one slot broken and the old head in the other, which lies in a block of its own. Bytes that no head counts are
// of no matter: so with the constants of a batch that is refused, over which the next batch writes its own.
//
// The file grows where the library finds no room (NoRoom keeps root and page count, HeapFull the heap): blocks are reserved at the end,
// mapped behind those that are there, and the head that is written with the batch names them. By half of what there is, or where the disk
// has not so much, by less, down to one block. Blocks are reserved before they are written through the map, so a full disk is an error of
// that call and no signal.
#ifndef FLORIN_STORE_FILE_H
#define FLORIN_STORE_FILE_H

#include "batches.h"
#include "files.h"
#include "florinwick.hpp"
#include "heap_parts.h"
#include "long_values.h"
#include "store_format.h"
#include "trouble.h"

#include <functional>
#include <optional>
#include <string>
#include <vector>

namespace florin {

enum class Access { Read, Write };

struct Opening {
    Access access = Access::Read;
    double wait = 0;          // seconds for another writer to end
    bool salvage = false;     // go on though the receipts are damaged; for reading alone
};

// How a batch goes in.
struct Terms {
    bool may_grow = true;
    std::uint64_t flags = 0;                 // of the receipt
    std::optional<std::uint64_t> time = {};  // of the receipt; now, if not said
    bool sort = false;                       // the batch may be in any order, and is sorted first
};

// What a new store begins with. Page size and order stay.
struct Beginning {
    std::uint64_t page_size;
    florinwick::Order order = florinwick::Order::Eavt;
    std::uint64_t room_pages = 64;
};

class StoreFile {
public:
    // A new store; no file stands at `path` before all of it is on the disk. `first` is a batch in any order, or has no datoms.
    static florinwick::Answer create(const std::string &path, const Beginning &beginning, Batch &first);
    // A new store that `fill` inserts into. It is synced once, when it gets its name; none is left where `fill` throws or is refused.
    static florinwick::Answer build(const std::string &path, const Beginning &beginning,
                                    const std::function<florinwick::Answer(StoreFile &)> &fill);

    StoreFile(const std::string &path, const Opening &opening);
    ~StoreFile();
    StoreFile(const StoreFile &) = delete;
    StoreFile &operator=(const StoreFile &) = delete;

    const std::string &path() const { return path_; }
    const Head &head() const { return head_; }
    // One of the two slots is not valid: a head was being written when the power or the process was cut.
    bool has_broken_slot() const { return broken_slot_; }
    // The receipts are not those that the head speaks of; it was opened to be salvaged.
    bool has_broken_receipts() const { return broken_receipts_; }
    std::uint64_t free_pages() const;                        // before the file grows
    std::uint64_t free_heap() const { return heap_.size() - head_.heap_length; }   // in bytes
    std::uint64_t offset_of(std::uint64_t page) const;       // in the file
    std::uint64_t file_size() const;

    // They see the constants too that were put for a batch or a bound, and are good until the next one is.
    florinwick::Reader reader() const { return {pages(), heap_lent(), record()}; }
    florinwick::HeapView heap() const { return {heap_lent(), heap_end_}; }
    florinwick::ByContent by_content() const { return {heap(), head_.order}; }   // as the trees have their datoms
    std::vector<Receipt> receipts() const;
    Receipt newest_receipt() const { return decode_receipt(receipts_.data() + kReceiptBytes * (head_.receipts - 1)); }   // there is one
    // A page in use is what was written when its batch went in, as far as its checksum tells.
    bool is_as_written(std::uint64_t page) const;
    // The checksums of a batch's pages are those that its receipt speaks of.
    bool has_sums_of(const Receipt &receipt) const;
    // Which constants are as they were written.
    HeapParts heap_parts() const { return {heap(), heap_lent(), receipts()}; }

    // Done means: on the disk. The file grows as the batch needs it, if it may. The batch's long values get their places on the heap, each
    // content one; what the heap has already is not appended again.
    florinwick::Answer insert(std::uint64_t root, Batch &batch, const Terms &terms);

    // In a store that is read, long values to look for are put in memory alone, behind the heap. A batch lets go of those before it.
    void put_aside(Batch &batch);
    florinwick::Datom put_aside(const TypedDatom &bound);

    // A new file with all that counts here, and no more: a whole store, also beside a writer. Altered where a page or a constant is not as it
    // was written.
    void copy_to(const std::string &path) const;

private:
    StoreFile(const std::string &path, int file) : path_(path), file_(file), owns_file_(false) {}

    void lock(double wait);
    void load_head();
    void map(bool may_write);
    void test_receipts(bool salvage);
    bool are_receipts_whole() const;
    bool has_place_for_receipt() const;
    // What parts of the file have too little room, in bytes.
    struct Growth {
        std::uint64_t pages = 0, sums = 0, receipts = 0, heap = 0;
    };
    void grow();
    void grow_heap(std::uint64_t need);
    template <class GrowthOf>
    void grow_by(std::uint64_t least, std::uint64_t wanted, GrowthOf growth_of);
    int extend(Growth growth);
    void add_extents(const Growth &growth);
    florinwick::Answer initialise(Batch &batch);
    florinwick::Answer put_values(Batch &batch, bool may_grow);
    florinwick::Put put_value(const LongValue &value, bool may_grow);
    florinwick::Put append(const LongValue &value);
    void make_room_aside(std::uint64_t need);
    void know_constants();
    void keep_constants();
    template <class Call>
    florinwick::Answer write_tree(Call call, std::uint64_t from, const Batch &batch, const Terms &terms);
    void commit(const florinwick::Answer &answer, std::uint64_t from, const Batch &batch, const Terms &terms);
    std::uint64_t sum_of_constants() const;
    std::uint64_t put_sums(std::uint64_t first, std::uint64_t count);
    void put_receipt(const Receipt &receipt);
    void write_head();
    void settle();
    const std::uint8_t *sums_at(std::uint64_t page) const { return sums_.data() + kSumBytes * page; }
    florinwick::ByteView page(std::uint64_t at) const;
    florinwick::ByteView pages() const;
    florinwick::ByteArea lent() const;
    florinwick::ByteArea heap_lent() const { return {heap_.data(), static_cast<std::size_t>(heap_.size())}; }
    florinwick::StoreRecord record() const { return {head_.page_size, head_.page_count, heap_end_, head_.order}; }

    std::string path_;
    int file_ = -1;
    bool owns_file_ = true;
    Head head_;
    bool broken_slot_ = false;
    bool broken_receipts_ = false;
    Mapping pages_, sums_, receipts_, heap_;
    std::uint64_t heap_end_ = 0;             // of the constants that count, and of those that were put since
    ConstantIndex known_, fresh_;            // the former, once there was a batch with long values; the latter
    bool knows_constants_ = false;
    bool heap_is_aside_ = false;             // what is put on it goes to no file
    std::vector<std::uint8_t> scratch_;
};

// What a copy of another file is made of.
struct StoreParts {
    florinwick::ByteView pages, sums, receipts, heap;
};

// A new store of these parts, with the head's numbers.
void write_store(const std::string &path, Head head, const StoreParts &given);

}  // namespace florin

#endif
