// One call on two copies of the same arguments: in one the guard pages are right before the slices, in the other right behind. The
// answers must be equal, and no byte may change that the answer does not allow.
#pragma once

#include "entries.h"
#include "lent.h"
#include "page.h"

// Sixteen of the largest pages, and the scratch that these need.
constexpr size_t STORE_ROOM = 1 << 17;
constexpr size_t SCRATCH_ROOM = 619584 + GUARD;
constexpr size_t CURSOR = 264;
constexpr size_t HEAP_ROOM = 4096, RECORD = 32;

enum class Entry { Initialise, Insert, Fetch, Check, Start, Step, Held, Named, AppendInteger, AppendBytes };

struct Call {
    Entry entry;
    uint64_t page_size, page_count;
    // Root or page.
    uint64_t root = NONE;
    // How much of the store is lent.
    size_t store_length;
    // The batch or the bytes to append, or the lower and upper bound, or the cursor.
    std::vector<uint8_t> batch, lower, upper, cursor;
    size_t scratch_length = 0, datom_length = 32, answer_length = 32;
    // How much of the heap is lent, how much of that is said to be in use, and how long the record is that says so.
    size_t heap_lent = 0;
    uint64_t heap_length = 0;
    size_t record_length = RECORD;
    // Any number, of which few are orders.
    uint64_t order = Eavt;
    // The integer to append.
    uint64_t value = 0;

    bool appends() const { return entry == Entry::AppendInteger || entry == Entry::AppendBytes; }

    // A fetch and the appends compare nothing.
    bool compares() const { return entry != Entry::Fetch && !appends(); }

    // Page size, page count, heap length and order, cut short or with noise behind.
    std::vector<uint8_t> record() const {
        std::vector<uint8_t> bytes(std::max(record_length, RECORD), 0x3c);
        uint64_t words[] = {page_size, page_count, heap_length, order};
        memcpy(bytes.data(), words, RECORD);
        bytes.resize(record_length);
        return bytes;
    }

    bool writes() const { return entry == Entry::Initialise || entry == Entry::Insert || entry == Entry::Named; }

    // Which faults it can name, a bit for each. A root is below the count, and the children of a readable page are below its own id: only
    // the pages of a made-up cursor can be missing.
    uint64_t names() const {
        constexpr uint64_t read = 0xfe | 1 << WrongLevel;
        switch (entry) {
        case Entry::Start: case Entry::Held: return read;
        case Entry::Named: return read | 1 << EqualDatoms;
        case Entry::Check: return read | 1 << OutOfBounds;
        case Entry::Step: return read | 1 << Missing | 1 << EqualDatoms | 1 << PastCount | 1 << TooHigh | 1 << NothingLeft;
        default: return 0;
        }
    }
};

// The four words; where the answer area has another length than 32, the number that was returned, and zeros.
struct Answer {
    uint64_t number = 0, root = 0, pages = 0, detail = 0;
    std::vector<uint8_t> cursor, datom;

    // Damaged or Unsound: the third word is then a fault's number, where the call names one.
    bool is_faulty() const { return number == 7 || number == 33; }
};

// All slices of a call, in one of the two placements.
struct Slices {
    Lent store, heap, record, batch, scratch, lower, upper, cursor, datom, answer;

    explicit Slices(End end)
        : store(STORE_ROOM, end), heap(HEAP_ROOM, end), record(GUARD, end), batch(8192, end), scratch(SCRATCH_ROOM, end), lower(GUARD, end), upper(GUARD, end),
          cursor(GUARD, end), datom(GUARD, end), answer(GUARD, end) {}

    void lay(const Call &call) {
        static const std::vector<uint8_t> unwritten(GUARD, 0x5a);
        const std::vector<uint8_t> words = call.record();
        record.lay(words.data(), words.size());
        batch.lay(call.batch.data(), call.batch.size());
        scratch.lay(call.scratch_length);
        lower.lay(call.lower.data(), call.lower.size());
        upper.lay(call.upper.data(), call.upper.size());
        cursor.lay(call.cursor.data(), call.cursor.size());
        datom.lay(unwritten.data(), call.datom_length);
        answer.lay(unwritten.data(), call.answer_length);
    }

    void must_be_whole() const {
        for (const Lent *lent : {&store, &heap, &record, &batch, &scratch, &lower, &upper, &cursor, &datom, &answer}) {
            lent->must_be_whole();
        }
    }

    uint64_t make(const Call &call) {
        uint8_t *out = answer.bytes();
        const uint8_t *pages = store.for_reading(), *constants = heap.for_reading(), *said = record.for_reading();
        size_t room = call.store_length, words = call.answer_length, lent = call.heap_lent, length = record.length();
        switch (call.entry) {
        case Entry::Initialise:
            return florinwick_initialise(store.bytes(), room, constants, lent, said, length, batch.for_reading(), batch.length(),
                    scratch.bytes(), scratch.length(), out, words);
        case Entry::Insert:
            return florinwick_insert(store.bytes(), room, constants, lent, said, length, call.root, batch.for_reading(),
                    batch.length(), scratch.bytes(), scratch.length(), out, words);
        case Entry::Named:
            return florinwick_insert_named(store.bytes(), room, constants, lent, said, length, call.root, batch.for_reading(),
                    batch.length(), scratch.bytes(), scratch.length(), out, words);
        case Entry::Fetch:
            return florinwick_fetch(pages, room, said, length, call.root, out, words);
        case Entry::Check:
            return florinwick_check(pages, room, constants, lent, said, length, call.root, out, words);
        case Entry::Start:
            return florinwick_list_start(pages, room, constants, lent, said, length, call.root, lower.for_reading(),
                    lower.length(), upper.for_reading(), upper.length(), cursor.bytes(), cursor.length(), out, words);
        case Entry::Step:
            return florinwick_list_step(pages, room, constants, lent, said, length, cursor.bytes(), cursor.length(),
                    datom.bytes(), datom.length(), out, words);
        case Entry::Held:
            return florinwick_held(pages, room, constants, lent, said, length, call.root, batch.for_reading(), batch.length(), out, words);
        case Entry::AppendInteger:
            return florinwick_append_u64(heap.bytes(), lent, call.heap_length, call.value, out, words);
        case Entry::AppendBytes:
            return florinwick_append_bytes(heap.bytes(), lent, call.heap_length, batch.for_reading(), batch.length(), out, words);
        }
        abort();
    }

    Answer call(const Call &call) {
        lay(call);
        Answer told;
        told.number = make(call);
#ifdef MEDDLE
        MEDDLE;
#endif
        must_be_whole();
        told.cursor.assign(cursor.bytes(), cursor.bytes() + cursor.length());
        told.datom.assign(datom.bytes(), datom.bytes() + datom.length());
        const uint8_t *words = answer.bytes();
        if (call.answer_length == 32) {
            must(told.number == word_at(words), "the number returned is not the answer's first word");
            told.root = word_at(words + 8), told.pages = word_at(words + 16), told.detail = word_at(words + 24);
        } else {
            must(std::all_of(words, words + call.answer_length, [](uint8_t byte) { return byte == 0x5a; }),
                    "an answer area of a wrong length was changed");
        }
        return told;
    }
};

class Twice {
public:
    // The same store on both sides.
    void store(const std::vector<uint8_t> &content) {
        for (Slices *slices : {&front_, &back_}) {
            slices->store.lay(content.data(), content.size());
        }
    }

    // And the same heap.
    void heap(const std::vector<uint8_t> &content) {
        for (Slices *slices : {&front_, &back_}) {
            slices->heap.lay(content.data(), content.size());
        }
    }

    const uint8_t *pages() const { return front_.store.bytes(); }
    const uint8_t *constants() const { return front_.heap.bytes(); }

    void poke(size_t at, uint8_t byte) { front_.store.bytes()[at] = back_.store.bytes()[at] = byte; }
    void poke_heap(size_t at, uint8_t byte) { front_.heap.bytes()[at] = back_.heap.bytes()[at] = byte; }

    // In a store that was never damaged every page that is written must be readable.
    Answer call(const Call &call, bool is_sound) {
        Answer answer = front_.call(call);
        // The other copy of the store is still as before.
        judge_words(call, answer);
        judge_record(call, answer);
        judge_faults(call, answer);
        uint64_t pages = call.writes() ? pages_changed(call, answer) : 0;
        for (uint64_t id = call.page_count; is_sound && id < call.page_count + pages; id++) {
            must(is_written_page(pages_at(id, call), call.page_size, id, used(call)), "a page was written that is not as pages are");
        }
        if (call.appends()) {
            judge_append(call, answer);
        }
        Answer again = back_.call(call);
        must(again.number == answer.number && again.root == answer.root && again.pages == answer.pages
                && again.detail == answer.detail, "two calls with the same arguments differ in their answers");
        must(again.cursor == answer.cursor && again.datom == answer.datom, "two calls with the same arguments differ in an area");
        // A call that reads has its store in memory that cannot be written.
        must(!call.writes() || memcmp(front_.store.bytes(), back_.store.bytes(), front_.store.length()) == 0,
                "two calls with the same arguments leave different stores");
        // Nor can any but an append write to the heap.
        must(!call.appends() || memcmp(front_.heap.bytes(), back_.heap.bytes(), front_.heap.length()) == 0,
                "two calls with the same arguments leave different heaps");
        return answer;
    }

private:
    Slices front_{End::Front}, back_{End::Back};

    // Which numbers an entry may give, and what the other words then are.
    static void judge_words(const Call &call, const Answer &answer) {
        static const uint64_t may_give[] = {0x2b1f, 0x2bff, 0x23, 0x2023 | uint64_t{1} << 33, 0x24a3, 0x2083 | uint64_t{1} << 32, 0x128bf, 0x2bff, 0x1803, 0x1803};
        uint64_t number = answer.number, batch = call.batch.size() / 32;
        must(number < 64 && may_give[static_cast<int>(call.entry)] >> number & 1, "a number that this entry does not give");
        if (call.answer_length != 32) {
            must(number == 1, "an answer area of a wrong length is not answered by 1");
            return;
        }
        bool is_refused = number != 0 && number < 32, keeps_root = call.entry != Entry::Fetch && call.entry != Entry::Step && !call.appends();
        must(!is_refused || answer.root == (keeps_root ? call.root : 0), "a refused call does not give back its root");
        bool has_pages = (call.writes() || call.appends()) && number == 0, is_named = answer.is_faulty() && call.names() != 0;
        must(has_pages || is_named || answer.pages == 0, "a third word that is not used is not 0");
        must(!is_named || (answer.pages < 64 && call.names() >> answer.pages & 1), "a fault that this entry does not name");
        must(call.writes() || call.appends() || is_refused || answer.root == 0, "a word that is not used is not 0");
        switch (number) {
        case 3: case 4: case 6: case 16:
            must(answer.detail < batch, "an index past the batch");
            break;
        case 11:
            must(call.appends() ? answer.detail == 0 : answer.detail < batch, "an index past the batch, or one of an append");
            break;
        case 7: case 33:
            must(call.entry == Entry::Step || answer.detail < call.page_count, "a page past the count");
            break;
        default:
            must(answer.detail == 0, "a word that is not used is not 0");
        }
        if (number != 0 || call.entry != Entry::Step) {
            must(answer.datom == std::vector<uint8_t>(call.datom_length, 0x5a), "a datom area was changed where none is yielded");
        }
        if (number != 0 || (call.entry != Entry::Start && call.entry != Entry::Step)) {
            must(answer.cursor == call.cursor, "a cursor was changed by a call that is refused or has ended");
        }
    }

    // The heap that a call may read, where it is not refused by 1, and the order in which it does.
    Heap used(const Call &call) const { return {constants(), std::min<uint64_t>(call.heap_length, front_.heap.length()), call.order}; }

    // "13 BadOrder for an unknown order number, straight after 1."
    static void judge_record(const Call &call, const Answer &answer) {
        if (call.appends()) {
            return;
        }
        uint64_t number = is_bad_store(call) ? 1 : call.compares() && call.order >= ORDERS ? 13 : 0;
        must(number == 0 || answer.number == number, "a record that is to be refused by 1 or 13 is not");
        must(number != 0 || (answer.number != 1 && answer.number != 13), "a record is refused by 1 or 13 that is good");
    }

    // What 1 is given for: the record and the lengths of what is lent. A fetch does not look at the heap length.
    static bool is_bad_store(const Call &call) {
        bool is_listing = call.entry == Entry::Start || call.entry == Entry::Step;
        bool is_bad_heap = call.compares() && (call.heap_length > call.heap_lent || call.heap_length % 8 != 0);
        bool is_bad_extent = capacity(call.page_size) == 0 || call.page_count > call.store_length / call.page_size;
        return call.answer_length != 32 || call.record_length != RECORD || is_bad_extent || is_bad_heap
            || (call.writes() && call.scratch_length < florinwick_scratch_need(call.page_size))
            || (is_listing && call.cursor.size() != CURSOR) || (call.entry == Entry::Step && call.datom_length != 32);
    }

    // "1 for a heap length over its slice or no multiple of 8; then 11, then 12": what an append answers, and the bytes that it leaves. The
    // other heap is still as before.
    void judge_append(const Call &call, const Answer &answer) const {
        bool is_integer = call.entry == Entry::AppendInteger;
        std::vector<uint8_t> bytes(8);
        uint64_t first = is_integer ? call.value : call.batch.size();
        memcpy(bytes.data(), &first, 8);
        if (!is_integer) {
            bytes.insert(bytes.end(), call.batch.begin(), call.batch.end());
            bytes.resize((bytes.size() + 7) / 8 * 8);
        }
        bool is_wrong = call.answer_length != 32 || call.heap_length > call.heap_lent || call.heap_length % 8 != 0;
        bool is_inline = is_integer ? tag_of(call.value) == Integer : call.batch.size() < 8;
        uint64_t number = is_wrong ? 1 : is_inline ? 11 : call.heap_lent - call.heap_length < bytes.size() ? 12 : 0;
        must(answer.number == number, "an append is not refused as it is to be, or is");
        if (number != 0) {
            must(memcmp(constants(), back_.heap.bytes(), back_.heap.length()) == 0, "a refused append has changed the heap");
            return;
        }
        uint64_t tag = is_integer ? IntegerAt : BytesAt, end = call.heap_length + bytes.size();
        must(answer.root == (tag << 62 | call.heap_length) && answer.pages == bytes.size(), "an append does not name its constant");
        must(memcmp(constants() + call.heap_length, bytes.data(), bytes.size()) == 0, "a constant is not as it is to be laid");
        must(memcmp(constants(), back_.heap.bytes(), call.heap_length) == 0
                && memcmp(constants() + end, back_.heap.bytes() + end, back_.heap.length() - end) == 0,
                "an append has changed a byte beside its constant");
    }

    // What is named is what the page's bytes say, as far as that can be told from the page, the root or the cursor alone.
    void judge_faults(const Call &call, const Answer &answer) const {
        if (call.answer_length == 32 && answer.number != 1 && answer.number != 13 && !call.appends()) {
            if (answer.is_faulty() && call.names() != 0) {
                judge_page(call, answer.pages, answer.detail);
            }
            judge_root(call, answer);
            judge_opening(call, answer);
        }
    }

    void judge_page(const Call &call, uint64_t fault, uint64_t page) const {
        if (fault == TooHigh || fault == NothingLeft) {
            must(page == NONE, "a page is given where none is to blame");
        } else if (page >= call.page_count) {
            must(fault == Missing, "a missing page is not called so");
        } else {
            must(broken(call, page) == (fault <= ChildId ? fault : NO_FAULT), "a page does not break first what is named");
        }
    }

    // A root that cannot be read is what is named, wherever it is read.
    void judge_root(const Call &call, const Answer &answer) const {
        bool is_walked = call.entry == Entry::Check || call.entry == Entry::Insert || call.entry == Entry::Named
                || (call.entry == Entry::Held && !call.batch.empty())
                || (call.entry == Entry::Start && (answer.number != 0 || word_at(answer.cursor.data()) != 0));
        bool is_before = (answer.number > 0 && answer.number <= 5) || answer.number == 10 || answer.number == 11;
        uint64_t rule = !is_walked || is_before || call.root >= call.page_count ? NO_FAULT : broken(call, call.root);
        must(rule == NO_FAULT || (answer.is_faulty() && answer.detail == call.root), "a root that cannot be read is passed over");
        must(rule == NO_FAULT || call.names() == 0 || answer.pages == rule, "a root's first broken rule is not named");
    }

    // "A step checks 1, then a height over 8, then the end, then the begin pages from the top."
    void judge_opening(const Call &call, const Answer &answer) const {
        if (call.entry != Entry::Step) {
            return;
        }
        auto word = [&](size_t i) { return word_at(call.cursor.data() + 8 * i); };
        uint64_t height = word(0);
        if (height > 8) {
            must(answer.pages == TooHigh, "a height over 8 is not named");
            return;
        }
        if (memcmp(call.cursor.data() + 8, call.cursor.data() + 8 * 17, 8 * height) == 0) {
            must(answer.number == 32, "a listing that has ended goes on");
            return;
        }
        for (uint64_t level = height; level-- > 0;) {
            uint64_t page = word(9 + level), fault = not_open(call, page, level, word(1 + level));
            if (fault != NO_FAULT) {
                must(answer.pages == fault && answer.detail == page, "a begin page that cannot be opened is not named");
                return;
            }
        }
    }

    uint64_t not_open(const Call &call, uint64_t page, uint64_t level, uint64_t index) const {
        if (page >= call.page_count) {
            return Missing;
        }
        const uint8_t *bytes = pages_at(page, call);
        uint64_t rule = broken(call, page);
        return rule != NO_FAULT ? rule : level_of(bytes, call.page_size) != level ? WrongLevel
            : index > count_of(bytes, call.page_size) ? PastCount : NO_FAULT;
    }

    uint64_t broken(const Call &call, uint64_t page) const { return broken_rule(pages_at(page, call), call.page_size, page, used(call)); }

    const uint8_t *pages_at(uint64_t id, const Call &call) const { return pages() + id * call.page_size; }

    // What changed in the one store against the other, which is as before, is whole pages behind the count: so many.
    uint64_t pages_changed(const Call &call, const Answer &answer) const {
        const uint8_t *now = front_.store.bytes(), *before = back_.store.bytes();
        size_t all = front_.store.length();
        bool may_write = answer.number == 0 || (answer.number >= 7 && answer.number <= 9);
        if (!may_write) {
            must(memcmp(now, before, all) == 0, "a refused call has changed the store");
            return 0;
        }
        size_t size = call.page_size, start = call.page_count * size, lent = call.store_length;
        must(memcmp(now, before, start) == 0, "a byte below the count was changed");
        must(memcmp(now + lent, before + lent, all - lent) == 0, "a byte past the lent store was changed");
        uint64_t pages = answer.pages;
        if (answer.number == 0) {
            must(pages <= (lent - start) / size, "more pages were written than fit");
            must(answer.root == NONE ? pages == 0 : answer.root < call.page_count + pages, "a root that is no page");
        } else {
            size_t last = lent;
            while (last > start && now[last - 1] == before[last - 1]) {
                last--;
            }
            pages = (last - start + size - 1) / size;
            must(start + pages * size <= lent, "a page was written that does not fit");
        }
        size_t end = start + pages * size;
        must(memcmp(now + end, before + end, lent - end) == 0, "a byte past the pages written was changed");
        return pages;
    }
};
