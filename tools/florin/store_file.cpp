#include "store_file.h"

#include "checksum.h"
#include "datom_text.h"

#include <algorithm>
#include <cerrno>
#include <chrono>
#include <cstring>
#include <ctime>
#include <functional>
#include <tuple>

#include <fcntl.h>
#include <sys/file.h>
#include <unistd.h>

namespace florin {

using florinwick::Answer;
using florinwick::ByteArea;
using florinwick::ByteView;
using florinwick::Datom;
using florinwick::Number;
using florinwick::Put;

namespace {

const std::uint64_t kLeastGrowth = 256 * 1024;
const std::uint64_t kLeastHeapGrowth = 16 * 1024;

Trouble not_a_store(const std::string &path, const std::string &why) {
    return {kNotAStore, "NotAStore", path + " is no store of florin: " + why + ".", "name a file that florin create has made."};
}

Trouble bad_head(const std::string &path, const std::string &why) {
    return {kBadHead, "BadHead", "the head of " + path + " is damaged: " + why + ". The file was left as it is.", "restore the file from a backup."};
}

Trouble cut_short(const std::string &what) { return {kCutShort, "CutShort", what, "restore the file from a backup."}; }

Trouble other_format(const std::string &what, const std::string &next) { return {kOtherFormat, "OtherFormat", what, next}; }

// The two heads, as far as they are valid.
struct Slots {
    std::optional<Head> first, second;
};

Slots read_slots(int file, const std::string &path) {
    std::uint8_t bytes[kHeadsBytes];
    const std::size_t got = read_some(file, bytes, sizeof bytes, path);
    if (got == 0) throw not_a_store(path, "it is empty");
    const auto marked = [&](const char *mark) {
        return (got >= 8 && has_mark(bytes, mark)) || (got >= kSlotBytes + 8 && has_mark(bytes + kSlotBytes, mark));
    };
    if (marked(kMarkOfOne)) {
        throw other_format(path + " was made by florin 0.1, in format 1. It was left as it is.",
                           "florin upgrade " + path + " NEW makes a store of today's format from it.");
    }
    if (!marked(kMark)) throw not_a_store(path, "it does not begin as one");
    if (got < sizeof bytes) throw cut_short(path + " ends within its head.");
    return {decode_head(bytes), decode_head(bytes + kSlotBytes)};
}

// Ascending, as the checksum of a batch takes its datoms.
Batch sorted(Batch batch, const florinwick::ByContent &less) {
    batch.sort(less);
    return batch;
}

// The datoms of a batch that have long values, by entity, attribute, value and transaction, whatever order the store has. So the same batch,
// however it is sorted, leaves the same heap.
std::vector<std::uint64_t> in_order_of_values(const Batch &batch) {
    std::vector<std::uint64_t> datoms;
    for (const auto &each : batch.long_values) datoms.push_back(each.first);
    const auto key = [&](std::uint64_t at) {
        const Datom datom = batch.datom(at);
        return std::make_tuple(datom.entity, datom.attribute, std::cref(batch.long_values.at(at)), datom.transaction_operation);
    };
    std::sort(datoms.begin(), datoms.end(), [&](std::uint64_t a, std::uint64_t b) { return key(a) < key(b); });
    return datoms;
}

}  // namespace

// --- a new store

Answer StoreFile::create(const std::string &path, const Beginning &beginning, Batch &first) {
    return build(path, beginning, [&](StoreFile &store) { return first.bytes.empty() ? Answer{} : store.initialise(first); });
}

Answer StoreFile::build(const std::string &path, const Beginning &beginning, const std::function<Answer(StoreFile &)> &fill) {
    const std::uint64_t page_size = beginning.page_size, room_pages = beginning.room_pages;
    if (florinwick_scratch_need(page_size) == 0) return florinwick::Store({}, page_size, {}).initialise({});
    if (room_pages > (kLargestFile / 4) / page_size) throw system_trouble(EFBIG, "create", path);
    NewFile file(path);
    StoreFile store(path, file.file());
    store.head_.page_size = page_size;
    store.head_.order = beginning.order;
    store.add_extents({rounded_up(room_pages * page_size), rounded_up(room_pages * kSumBytes), kBlock, 0});
    if (const int error = reserve(file.file(), store.head_.end())) throw system_trouble(error, "reserve room for", path);
    store.map(true);
    const Answer answer = fill(store);
    if (!answer.done()) return answer;
    // Into both slots, so that from now on a slot that is not valid tells of a cut.
    store.write_head();
    store.write_head();
    file.keep();
    return answer;
}

void write_store(const std::string &path, Head head, const StoreParts &given) {
    NewFile file(path);
    head.extents.clear();
    const std::pair<Kind, ByteView> parts[] = {
        {Kind::Receipts, given.receipts}, {Kind::Sums, given.sums}, {Kind::Heap, given.heap}, {Kind::Pages, given.pages}};
    for (const auto &part : parts) head.append(part.first, rounded_up(part.second.size()));
    if (const int error = reserve(file.file(), head.end())) throw system_trouble(error, "reserve room for", path);
    std::uint64_t at = kHeadsBytes;
    for (const auto &part : parts) {
        write_whole(file.file(), part.second.data(), part.second.size(), at, path);
        at += rounded_up(part.second.size());
    }
    for (std::uint64_t slot = 0; slot < 2; ++slot) {
        std::uint8_t bytes[kSlotBytes];
        head.sequence += 1;
        encode_head(head, bytes);
        write_whole(file.file(), bytes, sizeof bytes, head.sequence % 2 * kSlotBytes, path);
    }
    file.keep();
}

void StoreFile::copy_to(const std::string &path) const {
    for (std::uint64_t at = 0; at < head_.page_count; ++at) {
        if (is_as_written(at)) continue;
        throw Trouble{kAltered, "Altered", "page " + std::to_string(at) + " of " + path_ + " is not as it was written. No copy was made.",
                      "run florin check --all, and restore the file from an older backup; cp copies the file as it is.", {{"page", at}}};
    }
    if (const std::uint64_t batch = heap_parts().first_altered()) {
        throw Trouble{kAltered, "Altered",
                      "the long values of batch @" + std::to_string(batch) + " of " + path_ + " are not as they were written. No copy was made.",
                      "run florin check --all, and restore the file from an older backup; cp copies the file as it is.", {{"receipt", batch}}};
    }
    write_store(path, head_,
                {pages(), {sums_.data(), static_cast<std::size_t>(kSumBytes * head_.page_count)},
                 {receipts_.data(), static_cast<std::size_t>(kReceiptBytes * head_.receipts)},
                 {heap_.data(), static_cast<std::size_t>(head_.heap_length)}});
}

// --- opening

StoreFile::StoreFile(const std::string &path, const Opening &opening) : path_(path) {
    const bool writes = opening.access == Access::Write;
    file_ = open(path.c_str(), (writes ? O_RDWR : O_RDONLY) | O_CLOEXEC | O_NONBLOCK);
    if (file_ < 0) throw system_trouble(errno, "open", path);
    try {
        size_of(file_, path_);
        if (writes) lock(opening.wait);
        load_head();
        map(writes);
        test_receipts(opening.salvage && !writes);
    } catch (...) {
        close(file_);
        throw;
    }
}

StoreFile::~StoreFile() {
    if (owns_file_) close(file_);
}

// One process writes at a time. Readers need no lock: what a head counts as in use does not change.
void StoreFile::lock(double wait) {
    const auto until = std::chrono::steady_clock::now() + std::chrono::duration<double>(wait);
    while (flock(file_, LOCK_EX | LOCK_NB) != 0) {
        if (errno == EINTR) continue;
        if (errno != EWOULDBLOCK) throw system_trouble(errno, "lock", path_);
        if (std::chrono::steady_clock::now() >= until) {
            throw Trouble{kBusy, "Busy", "another process writes to " + path_ + ". Nothing was written.",
                          "try again when it has ended, or let --wait SECONDS do that."};
        }
        usleep(10000);
    }
}

void StoreFile::load_head() {
    Slots slots = read_slots(file_, path_);
    // A reader may meet a head while it is written. That is over in a moment; a slot that stays broken is told.
    for (int again = 0; again < 5 && !(slots.first && slots.second); ++again) {
        usleep(1000);
        slots = read_slots(file_, path_);
    }
    if (!slots.first && !slots.second) throw bad_head(path_, "neither of its two slots is valid");
    head_ = !slots.second || (slots.first && slots.first->sequence > slots.second->sequence) ? *slots.first : *slots.second;
    broken_slot_ = !(slots.first && slots.second);
    heap_end_ = head_.heap_length;
    // The checksum was right, and yet the head may have been made by another program.
    if (const std::string news = news_of(head_); !news.empty()) {
        throw other_format(path_ + " was made by a newer florin: it has " + news + ". It was left as it is.", "use that florin.");
    }
    const std::uint64_t size = size_of(file_, path_);
    if (const std::string fault = fault_of(head_, size); !fault.empty()) throw bad_head(path_, fault);
    if (head_.end() > size) throw cut_short(path_ + " has " + grouped(size) + " bytes, and its head says " + grouped(head_.end()) + ".");
}

void StoreFile::map(bool may_write) {
    pages_.map(file_, head_.extents, Kind::Pages, may_write, path_);
    sums_.map(file_, head_.extents, Kind::Sums, may_write, path_);
    receipts_.map(file_, head_.extents, Kind::Receipts, may_write, path_);
    heap_.map(file_, head_.extents, Kind::Heap, may_write, path_);
    if (may_write) scratch_.resize(florinwick_scratch_need(head_.page_size));
}

// All of them, at every opening: a copy whose head is of one moment and whose receipts are of another is found by whoever opens it.
void StoreFile::test_receipts(bool salvage) {
    broken_receipts_ = !are_receipts_whole();
    if (!broken_receipts_ || salvage) return;
    throw Trouble{kBadHead, "BadHead", "the receipts of " + path_ + " are not those that its head speaks of. The file was left as it is.",
                  "restore the file from a backup; with --salvage florin list, check, page and tree read its newest root."};
}

bool StoreFile::are_receipts_whole() const {
    std::uint64_t chain = 0;
    Receipt last;
    for (std::uint64_t i = 0; i < head_.receipts; ++i) {
        const std::uint8_t *at = receipts_.data() + kReceiptBytes * i;
        const Receipt receipt = decode_receipt(at);
        if (!follows(at, chain) || !may_follow(receipt, last)) return false;
        chain = chain_of(at);
        last = receipt;
    }
    return chain == head_.chain && last.root == head_.root() && last.page_count == head_.page_count && last.heap_length == head_.heap_length;
}

// --- what there is

std::uint64_t StoreFile::file_size() const { return size_of(file_, path_); }

std::uint64_t StoreFile::offset_of(std::uint64_t page) const {
    std::uint64_t at = page * head_.page_size;
    for (const Extent &extent : head_.extents) {
        if (extent.kind != Kind::Pages) continue;
        if (at < extent.length) return extent.offset + at;
        at -= extent.length;
    }
    return head_.end();
}

ByteView StoreFile::page(std::uint64_t at) const { return {pages_.data() + at * head_.page_size, static_cast<std::size_t>(head_.page_size)}; }

ByteView StoreFile::pages() const { return {pages_.data(), static_cast<std::size_t>(head_.page_count * head_.page_size)}; }

std::vector<Receipt> StoreFile::receipts() const {
    std::vector<Receipt> receipts;
    if (broken_receipts_) return receipts;
    for (std::uint64_t i = 0; i < head_.receipts; ++i) receipts.push_back(decode_receipt(receipts_.data() + kReceiptBytes * i));
    return receipts;
}

bool StoreFile::is_as_written(std::uint64_t at) const { return florinwick::get_word(sums_at(at)) == page_checksum(at, page(at)); }

bool StoreFile::has_sums_of(const Receipt &receipt) const {
    if (receipt.pages > receipt.page_count || receipt.page_count > head_.page_count) return false;
    return checksum(sums_at(receipt.page_count - receipt.pages), kSumBytes * receipt.pages) == receipt.pages_sum;
}

// --- writing

// What the library may write to: pages that have a place for their checksums, if there is a place for the receipt.
ByteArea StoreFile::lent() const {
    const std::uint64_t room = std::min(pages_.size(), sums_.size() / kSumBytes * head_.page_size);
    return {pages_.data(), static_cast<std::size_t>(has_place_for_receipt() ? room : head_.page_count * head_.page_size)};
}

std::uint64_t StoreFile::free_pages() const { return lent().size() / head_.page_size - head_.page_count; }

bool StoreFile::has_place_for_receipt() const { return receipts_.size() / kReceiptBytes > head_.receipts; }

Answer StoreFile::insert(std::uint64_t root, Batch &batch, const Terms &terms) {
    const Answer put = put_values(batch, terms.may_grow);
    if (!put.done()) return {put.number, root};
    if (terms.sort) batch.sort(by_content());
    const auto call = [&](florinwick::Store &tree) { return tree.insert_at(root, batch.bytes); };
    return write_tree(call, root, batch, terms);
}

Answer StoreFile::initialise(Batch &batch) {
    const Answer put = put_values(batch, true);
    if (!put.done()) return put;
    const auto call = [&](florinwick::Store &tree) { return tree.initialise(batch.bytes); };
    return write_tree(call, florinwick::none, batch, Terms{});
}

template <class Call>
Answer StoreFile::write_tree(Call call, std::uint64_t from, const Batch &batch, const Terms &terms) {
    florinwick::Store tree(lent(), heap_lent(), record(), ByteArea(scratch_), head_.root());
    Answer answer = call(tree);
    while (answer.number == Number::NoRoom && terms.may_grow) {
        grow();
        tree.lend(lent());
        tree.lend_heap(heap_lent());
        answer = call(tree);
    }
    // An empty batch at root none writes no page, and there is nothing to keep.
    if (answer.done() && answer.pages > 0) commit(answer, from, batch, terms);
    return answer;
}

void StoreFile::commit(const Answer &answer, std::uint64_t from, const Batch &batch, const Terms &terms) {
    const florinwick::StoreRecord next = record_after(record(), answer);
    Receipt receipt;
    receipt.from = from;
    receipt.root = answer.root;
    receipt.pages = answer.pages;
    receipt.page_count = next.page_count;
    receipt.datoms = batch.datoms();
    receipt.time = terms.time ? *terms.time : static_cast<std::uint64_t>(std::time(nullptr));
    receipt.flags = terms.flags;
    receipt.datoms_sum = sorted(batch, by_content()).sum(heap());
    receipt.pages_sum = put_sums(head_.page_count, answer.pages);
    receipt.heap_length = next.heap_length;
    receipt.heap_sum = sum_of_constants();
    put_receipt(receipt);
    head_.page_count = receipt.page_count;
    head_.heap_length = receipt.heap_length;
    head_.roots[0] = receipt.root;
    settle();
    write_head();
    keep_constants();
}

// Of those past the heap length that counts.
std::uint64_t StoreFile::sum_of_constants() const {
    if (heap_end_ == head_.heap_length) return 0;
    return checksum(heap_.data() + head_.heap_length, static_cast<std::size_t>(heap_end_ - head_.heap_length));
}

// Of pages past the count; gives the checksum of them all.
std::uint64_t StoreFile::put_sums(std::uint64_t first, std::uint64_t count) {
    for (std::uint64_t at = first; at < first + count; ++at) florinwick::put_word(sums_.data() + kSumBytes * at, page_checksum(at, page(at)));
    return checksum(sums_at(first), kSumBytes * count);
}

void StoreFile::put_receipt(const Receipt &receipt) {
    std::uint8_t *at = receipts_.data() + kReceiptBytes * head_.receipts;
    encode_receipt(receipt, head_.chain, at);
    head_.chain = chain_of(at);
    head_.receipts += 1;
}

// What the head speaks of has been synced before.
void StoreFile::write_head() {
    head_.sequence += 1;
    std::uint8_t slot[kSlotBytes];
    encode_head(head_, slot);
    write_whole(file_, slot, sizeof slot, head_.sequence % 2 * kSlotBytes, path_);
    settle();
}

// A file that is being built has no name, so nobody meets it half written: NewFile syncs it as a whole.
void StoreFile::settle() {
    if (owns_file_) sync(file_, path_);
}

void StoreFile::grow() {
    const bool pages = has_place_for_receipt();
    const std::uint64_t least = rounded_up(pages ? head_.page_size : kReceiptBytes), half = rounded_up((pages ? pages_ : receipts_).size() / 2);
    grow_by(least, std::max(half, pages ? kLeastGrowth : least),
            [&](std::uint64_t more) { return pages ? Growth{more, 0, 0, 0} : Growth{0, 0, more, 0}; });
}

void StoreFile::grow_heap(std::uint64_t need) {
    const std::uint64_t least = rounded_up(need);
    grow_by(least, std::max({rounded_up(heap_.size() / 2), kLeastHeapGrowth, least}), [](std::uint64_t more) { return Growth{0, 0, 0, more}; });
}

// What there is too little of, by half; where the disk has not so much, by less: what the batch needs may be a page.
template <class GrowthOf>
void StoreFile::grow_by(std::uint64_t least, std::uint64_t wanted, GrowthOf growth_of) {
    if (head_.extents.size() + 2 > kMostExtents) {
        throw Trouble{kNoSpace, "NoSpace", path_ + " has grown too often by small parts. Root and pages are as they were.",
                      "florin backup makes a copy of it in few parts; go on with that."};
    }
    int error = 0;
    for (std::uint64_t more : {wanted, 64 * least, 16 * least, 4 * least, least}) {
        if (more > wanted) continue;
        error = extend(growth_of(more));
        if (error == 0) return;
    }
    throw system_trouble(error, "enlarge", path_);
}

// The error where the disk, or a limit, has not so much; the file is then as it was.
int StoreFile::extend(Growth growth) {
    const std::uint64_t size = size_of(file_, path_);
    const Head before = head_;
    const std::uint64_t capacity = (pages_.size() + growth.pages) / head_.page_size * kSumBytes;
    growth.sums = capacity > sums_.size() ? rounded_up(capacity - sums_.size()) : 0;
    add_extents(growth);
    const int error = head_.end() > kLargestFile ? EFBIG : reserve(file_, head_.end());
    if (error == 0) {
        map(true);
        return 0;
    }
    head_ = before;
    // What was reserved in part goes back; no head speaks of it.
    if (ftruncate(file_, static_cast<off_t>(size)) != 0) throw system_trouble(errno, "enlarge", path_);
    if (error != ENOSPC && error != EFBIG && error != EDQUOT) throw system_trouble(error, "enlarge", path_);
    return error;
}

// Pages last, so that a file which has to grow by little grows by more of the same extent.
void StoreFile::add_extents(const Growth &growth) {
    head_.append(Kind::Receipts, growth.receipts);
    head_.append(Kind::Sums, growth.sums);
    head_.append(Kind::Heap, growth.heap);
    head_.append(Kind::Pages, growth.pages);
}

// --- long values

// Those of a batch before that was refused do not count, and give way.
Answer StoreFile::put_values(Batch &batch, bool may_grow) {
    fresh_.clear();
    heap_end_ = head_.heap_length;
    if (batch.long_values.empty()) return {};
    know_constants();
    for (std::uint64_t at : in_order_of_values(batch)) {
        const Put put = put_value(batch.long_values.at(at), may_grow);
        if (!put.done()) return {put.number};
        batch.set_value(at, put.value);
    }
    // The disk has the constants before it has a page that names them.
    if (heap_end_ > head_.heap_length) settle();
    return {};
}

Put StoreFile::put_value(const LongValue &value, bool may_grow) {
    for (const ConstantIndex *index : {&known_, &fresh_}) {
        if (const auto found = index->find(heap(), value)) return {Number::Done, *found, 0};
    }
    Put put = append(value);
    if (put.number == Number::HeapFull && may_grow) {
        grow_heap(constant_of(value).size());
        put = append(value);
    }
    if (put.done()) fresh_.add(heap(), put.value);
    return put;
}

Put StoreFile::append(const LongValue &value) {
    florinwick::StoreRecord next = record();
    const Put put = std::visit([&](const auto &content) { return florinwick::put(heap_lent(), next, content); }, value);
    heap_end_ = next.heap_length;
    return put;
}

// What was altered is not named again.
void StoreFile::know_constants() {
    if (knows_constants_) return;
    const HeapParts parts = heap_parts();
    for (std::uint64_t batch = 1; batch <= head_.receipts; ++batch) {
        if (!parts.is_altered(batch)) known_.add_part(heap(), parts.begin_of(batch), parts.end_of(batch));
    }
    knows_constants_ = true;
}

void StoreFile::keep_constants() {
    known_.add_all(fresh_);
    fresh_.clear();
}

void StoreFile::put_aside(Batch &batch) {
    heap_end_ = head_.heap_length;
    for (const auto &[at, value] : batch.long_values) batch.set_value(at, put_aside({batch.datom(at), value}).value);
}

Datom StoreFile::put_aside(const TypedDatom &bound) {
    Datom datom = bound.datom;
    if (!bound.long_value) return datom;
    const std::uint64_t need = constant_of(*bound.long_value).size();
    if (!heap_is_aside_ || heap_.size() - heap_end_ < need) make_room_aside(need);
    const Put put = append(*bound.long_value);
    if (!put.done()) throw refusal({put.number}, "");
    datom.value = put.value;
    return datom;
}

// What was put aside before comes along.
void StoreFile::make_room_aside(std::uint64_t need) {
    const std::vector<std::uint8_t> before(heap_.data() + head_.heap_length, heap_.data() + heap_end_);
    heap_.map_aside(file_, head_.extents, Kind::Heap, rounded_up(2 * before.size() + need), path_);
    std::copy(before.begin(), before.end(), heap_.data() + head_.heap_length);
    heap_is_aside_ = true;
}

}  // namespace florin
