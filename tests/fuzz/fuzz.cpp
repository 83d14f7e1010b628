// A fuzzer over the C interface. An input is a script of calls on one store and one heap; what a call answers is the fuzzer's feedback, as the
// archive itself has no counters.
#include <cstdint>
#include <optional>

#include "calls.h"

namespace {

constexpr size_t MOST_CALLS = 24, MOST_STEPS = 24;

// How much of a heap there is, and from which byte on a script speaks of it: with lower ones it means what it meant without a heap.
constexpr size_t HEAP_SLICE = 604;
constexpr uint8_t NEW = 240;

// Two bytes from here on make a call that reads, in another order than the store's.
constexpr uint8_t OTHER_ORDER = 252;

// libFuzzer keeps an input that reaches a counter for the first time.
constexpr size_t COUNTERS = 16384;
__attribute__((section("__libfuzzer_extra_counters"))) uint8_t counters[COUNTERS];

void note(std::initializer_list<uint64_t> what) {
    uint64_t hash = 1469598103934665603u;
    for (uint64_t word : what) {
        hash = (hash ^ word) * 1099511628211u;
        hash ^= hash >> 29;
    }
    counters[hash % COUNTERS] = 1;
}

// How often each call named each fault, told when the run ends: what was never named was never tried.
struct Named {
    uint64_t times[10][NothingLeft + 1] = {};

    ~Named() {
        static const std::pair<Entry, const char *> calls[] = {
            {Entry::Start, "start"}, {Entry::Step, "step"}, {Entry::Held, "held"}, {Entry::Check, "check"}, {Entry::Named, "insert_named"}};
        for (auto [entry, call] : calls) {
            fprintf(stderr, "faults 1 to 14 named by %s:", call);
            for (uint64_t fault = Level; fault <= NothingLeft; fault++) {
                fprintf(stderr, " %llu", static_cast<unsigned long long>(times[static_cast<int>(entry)][fault]));
            }
            fprintf(stderr, "\n");
        }
    }
};
Named named_so_far;

// How often each call gave each of the numbers that have to do with the heap and the record.
struct Given {
    uint64_t times[10][64] = {};

    ~Given() {
        for (int number : {0, 1, 10, 11, 12, 13}) {
            fprintf(stderr, "%d given by initialise, insert, fetch, check, start, step, held, insert_named, append_u64, append_bytes:", number);
            for (auto &call : times) {
                fprintf(stderr, " %llu", static_cast<unsigned long long>(call[number]));
            }
            fprintf(stderr, "\n");
        }
    }
};
Given given_so_far;

// Small numbers as they are, others by magnitude.
uint64_t about(uint64_t number) {
    return number < 8 ? number : 8 + 64 - static_cast<uint64_t>(__builtin_clzll(number));
}

// The bytes of an input, then zeros.
class Script {
public:
    Script(const uint8_t *at, size_t length) : at_(at), end_(at + length) {}
    bool is_over() const { return at_ == end_; }
    uint8_t byte() { return is_over() ? 0 : *at_++; }
    uint64_t below(uint64_t limit) { return byte() % limit; }
    uint64_t bytes(int count) {
        uint64_t word = 0;
        while (count-- > 0) {
            word = word << 8 | byte();
        }
        return word;
    }

    // Mostly small; now and then any word, or one at an end of a range.
    uint64_t number() {
        uint8_t first = byte();
        static const uint64_t ends[] = {UINT64_MAX, UINT64_MAX - 1, uint64_t{1} << 62, (uint64_t{1} << 62) - 1, uint64_t{1} << 63, 256};
        return first < 224 ? first : first < 248 ? ends[first % 6] : bytes(8);
    }

    // Inline, one of a word that may not be, or a constant of a heap that is so long, or beside one.
    uint64_t value(uint64_t heap_length) {
        uint8_t kind = byte();
        if (kind < 128) {
            return kind;
        }
        if (kind >= 240 && kind < 248) {
            uint64_t offset = 8 * below(heap_length / 8 + 2), tag = kind % 2 ? BytesAt : IntegerAt;
            return tag << 62 | (offset + (kind % 8 < 6 ? 0 : below(8)));
        }
        if (kind < 248) {
            uint64_t length = kind % 8, word = (0x80 | length) << 56;
            for (uint64_t i = 0; i < length; i++) {
                word |= uint64_t{byte()} << (8 * i);
            }
            return word;
        }
        return number();
    }

    Datom datom(uint64_t heap_length) { return {number(), below(4), value(heap_length), number()}; }

private:
    const uint8_t *at_, *end_;
};

void put(std::vector<uint8_t> &bytes, const Datom &datom) {
    bytes.resize(bytes.size() + 32);
    memcpy(bytes.data() + bytes.size() - 32, datom.data(), 32);
}

std::vector<uint8_t> bytes_of(const std::vector<Datom> &datoms) {
    std::vector<uint8_t> bytes;
    for (const Datom &datom : datoms) {
        put(bytes, datom);
    }
    return bytes;
}

// The datoms that led to a root, in order; nothing where that is not known.
using Led = std::optional<std::vector<Datom>>;

struct World {
    Script script;
    // The second is for the insert that names, and has the same pages.
    Twice twice, named;
    uint64_t size, count = 0;
    size_t length;
    // How long the heap's slice is, and how much of it is in use.
    size_t heap_lent = 0;
    uint64_t heap_length = 0;
    // What stands on it, in order.
    std::vector<uint64_t> constants;
    std::vector<uint64_t> roots;
    std::vector<Led> held;
    // No page was damaged, and no constant.
    bool is_sound = true;
    uint64_t last_number = 0;
    std::vector<uint8_t> cursor;
    // The one that the store is written in; for a while another that it is read in.
    uint64_t order = Eavt;

    void begin(const uint8_t *data, size_t data_length) {
        static const uint64_t sizes[] = {256, 256, 256, 568, 4096, 8192};
        script = Script(data, data_length);
        uint8_t first = script.byte();
        size = sizes[first % std::size(sizes)], order = first / std::size(sizes) % ORDERS;
        length = std::min(STORE_ROOM, script.below(8) * 32 * size + script.below(64));
        count = 0, is_sound = true, last_number = 0;
        roots.assign(1, NONE);
        held.assign(1, std::vector<Datom>());
        cursor.assign(CURSOR, 0);
        twice.store(std::vector<uint8_t>(length, 0xc3));
        named.store(std::vector<uint8_t>(length, 0xc3));
        heap_lent = HEAP_SLICE, heap_length = 0;
        constants.clear();
        twice.heap(std::vector<uint8_t>(heap_lent, 0xc3));
        named.heap(std::vector<uint8_t>(heap_lent, 0xc3));
    }

    Heap heap() const { return {twice.constants(), heap_length, order}; }

    Call good(Entry entry) {
        Call call{entry, size, count, NONE, length, {}, {}, {}, cursor};
        call.scratch_length = florinwick_scratch_need(size);
        call.heap_lent = heap_lent, call.heap_length = heap_length, call.order = order;
        return call;
    }

    Answer make(const Call &call) {
        // A batch that goes in in another order than the tree's may leave a page that cannot be read.
        bool is_kept = is_sound && call.order == order;
        Answer answer = twice.call(call, is_kept);
        if (call.writes() || call.appends()) {
            make_named(call, answer, is_kept);
        }
        uint64_t entry = static_cast<uint64_t>(call.entry);
        note({entry, answer.number, is_sound, call.page_size, about(call.order)});
        note({entry, answer.number, last_number, 1});
        note({entry, answer.number, about(answer.detail), 2});
        note({entry, answer.number, about(answer.pages), about(call.batch.size() / 32), 3});
        note_fault(call, answer);
        given_so_far.times[entry][answer.number]++;
        last_number = answer.number;
        return answer;
    }

    // An insert is made by the entry that names, too: it answers and leaves the same, but for the name. What else writes is made again.
    void make_named(Call call, const Answer &answer, bool is_kept) {
        call.entry = call.entry == Entry::Insert ? Entry::Named : call.entry;
        Answer again = named.call(call, is_kept);
        must(again.number == answer.number && again.root == answer.root && again.detail == answer.detail,
                "the insert that names answers otherwise");
        must(again.pages == answer.pages || (answer.number == 7 && answer.pages == 0), "the insert that names writes other pages");
        must(memcmp(twice.pages(), named.pages(), length) == 0, "the insert that names leaves another store");
        must(memcmp(twice.constants(), named.constants(), heap_lent) == 0, "an append that is made again leaves another heap");
        note_fault(call, again);
        given_so_far.times[static_cast<uint64_t>(call.entry)][again.number] += call.entry == Entry::Named;
    }

    static void note_fault(const Call &call, const Answer &answer) {
        if (answer.is_faulty()) {
            uint64_t entry = static_cast<uint64_t>(call.entry);
            note({entry, answer.pages, about(answer.detail), call.page_size, 4});
            named_so_far.times[entry][answer.pages]++;
        }
    }

    // The newest root or another one, or a number that may be no root.
    uint64_t root() {
        uint8_t which = script.byte();
        return which < 128 ? roots.back() : which < 248 ? roots[which % roots.size()] : script.number();
    }

    std::vector<uint8_t> batch(bool is_sorted) {
        std::vector<Datom> datoms;
        uint8_t kind = script.byte();
        uint64_t amount = kind % 132;
        if (kind < 132) {
            // A run of entities.
            uint64_t first = script.bytes(2), by = 1 + script.below(5), value = script.value(heap_length);
            for (uint64_t i = 0; i < amount; i++) {
                datoms.push_back({first + i * by, 1, value, 3});
            }
        } else {
            for (uint64_t i = 0; i < amount % 12; i++) {
                datoms.push_back(script.datom(heap_length));
            }
        }
        if (is_sorted) {
            std::sort(datoms.begin(), datoms.end(), heap().below());
        }
        return bytes_of(datoms);
    }

    // Lengths and numbers that a call may not have.
    void spoil(Call &call) {
        uint64_t off = script.byte();
        uint8_t which = script.byte();
        if (which >= NEW) {
            spoil_lent(call, off, which);
            return;
        }
        switch (which % 9) {
        case 0: call.answer_length = off % 48; break;
        case 1: call.page_size = script.number(); break;
        case 2: call.page_count = script.number(); break;
        case 3: call.scratch_length -= std::min<size_t>(call.scratch_length, off * off); break;
        case 4: call.store_length -= std::min<size_t>(call.store_length, off * off); break;
        case 5: call.batch.resize(call.batch.size() - std::min<size_t>(call.batch.size(), off % 33)); break;
        case 6: call.cursor.resize(off % 2 ? off : CURSOR + off % 9); break;
        case 7: call.datom_length = off % 48; break;
        default: (off % 2 ? call.lower : call.upper).resize(off % 40);
        }
    }

    // The same of the heap and the record; now and then of two of its words at a time.
    void spoil_lent(Call &call, uint64_t off, uint8_t which) {
        switch (which % 8) {
        case 0: call.heap_length = script.number(); break;
        case 1: call.heap_length -= std::min<uint64_t>(call.heap_length, off); break;
        case 2: call.heap_lent -= std::min<size_t>(call.heap_lent, off); break;
        case 3: call.record_length = off % 48; break;
        case 4: call.order = off % (ORDERS + 2); break;
        case 5: call.order = script.number(); break;
        case 6: call.order = off, call.page_count = script.number(); break;
        default: call.order = off, call.page_size = script.number();
        }
    }

    // A constant for the heap; now and then what has an inline form, or what stands there already.
    void append() {
        uint8_t kind = script.byte();
        Call call = good(kind % 2 ? Entry::AppendBytes : Entry::AppendInteger);
        call.value = kind < 32 ? script.number() : script.bytes(2) | uint64_t{1} << (62 + kind % 4 / 2);
        uint64_t length = script.below(4) ? 8 + script.below(20) : script.below(10);
        call.batch.assign(length, script.byte());
        for (uint64_t changes = script.below(4); changes > 0 && !call.batch.empty(); changes--) {
            size_t place = script.byte() % call.batch.size();
            call.batch[place] = script.byte();
        }
        if (kind >= 224 && !constants.empty()) {
            copy(call, constants[kind % constants.size()]);
        }
        bool is_spoilt = script.below(8) == 0;
        if (is_spoilt) {
            spoil(call);
        }
        Answer answer = make(call);
        note({9, answer.number, about(heap_length), call.batch.size() % 8});
        if (answer.number == 0 && is_spoilt) {
            // It may have written over constants, or past the length.
            is_sound = false;
        } else if (answer.number == 0) {
            constants.push_back(answer.root);
            must(heap().length + answer.pages <= heap_lent, "an append passes the heap");
            heap_length += answer.pages;
            must(heap().is_storable({0, 0, answer.root, 0}), "a constant that was appended is none");
        }
    }

    // The content of a constant once more.
    void copy(Call &call, uint64_t word) const {
        const uint8_t *at = twice.constants() + offset_of(word);
        call.entry = tag_of(word) == BytesAt ? Entry::AppendBytes : Entry::AppendInteger;
        call.value = word_at(at);
        if (call.entry == Entry::AppendBytes && heap().has(offset_of(word) + 8, call.value)) {
            call.batch.assign(at + 8, at + 8 + call.value);
        }
    }

    // A byte of the heap, mostly of a constant's first word.
    void damage_heap() {
        if (heap_length == 0) {
            return;
        }
        uint64_t place = script.byte(), which = script.below(4);
        size_t at = which == 0 || constants.empty() ? place * 2 % heap_length : offset_of(constants[place % constants.size()]) + (which == 1 ? 0 : 7);
        uint8_t byte = script.byte();
        is_sound = false;
        twice.poke_heap(at, byte);
        named.poke_heap(at, byte);
    }

    void write() {
        bool is_insert = script.below(4) != 0;
        Call call = good(is_insert ? Entry::Insert : Entry::Initialise);
        call.root = is_insert ? root() : NONE;
        call.batch = batch(script.below(16) != 0);
        bool is_spoilt = script.below(16) == 0;
        if (is_spoilt) {
            spoil(call);
        }
        Answer answer = make(call);
        bool has_written = answer.number == 0 || (answer.number >= 7 && answer.number <= 9);
        if (is_spoilt && has_written) {
            // It may have written over pages in use.
            is_sound = false;
        }
        if (is_spoilt || answer.number != 0) {
            return;
        }
        count += answer.pages;
        if (answer.root == NONE) {
            return;
        }
        held.push_back(with(held_at(call.root), call.batch));
        roots.push_back(answer.root);
        note({7, level_of(twice.pages() + answer.root * size, size), about(count)});
        if (is_sound) {
            must_hold(answer.root, call);
        }
    }

    // No page that may be a root has none; a page in use that no call gave as a root, a child, is not known.
    Led held_at(uint64_t root) const {
        auto which = std::find(roots.begin(), roots.end(), root);
        return root >= count ? held[0] : which == roots.end() ? Led() : held[static_cast<size_t>(which - roots.begin())];
    }

    Led with(Led led, const std::vector<uint8_t> &batch) const {
        if (!led) {
            return led;
        }
        auto old = static_cast<std::ptrdiff_t>(led->size());
        for (size_t at = 0; at < batch.size(); at += 32) {
            led->push_back(datom_at(batch.data() + at));
        }
        std::sort(led->begin() + old, led->end(), heap().below());
        std::inplace_merge(led->begin(), led->begin() + old, led->end(), heap().below());
        return led;
    }

    // A batch that went in is met again at its root, and held there and not before, and the tree is sound.
    void must_hold(uint64_t root, const Call &call) {
        Call again = good(Entry::Insert);
        again.root = root, again.batch = call.batch;
        if (!call.batch.empty()) {
            Answer answer = make(again);
            bool is_repeated = answer.number == 6 && answer.detail == 0;
            // The batch of an initialise need not rise.
            must(is_repeated || (call.entry == Entry::Initialise && answer.number == 4), "a batch that went in is not met again");
        }
        ask_for(root, call.batch);
        ask_for(call.root, call.batch);
        Call check = good(Entry::Check);
        check.root = root;
        must(make(check).number == 0, "a tree that was built by these calls is not sound");
    }

    // What is answered of a batch in a sound store: 2, 3, 11 and 4 as insert has them, then the first datom that the root does not hold.
    void ask_for(uint64_t root, const std::vector<uint8_t> &batch) {
        Call call = good(Entry::Held);
        call.root = root, call.batch = batch;
        Answer answer = make(call);
        Led there = held_at(root);
        if (!there) {
            return;
        }
        uint64_t number = batch.size() % 32 != 0 || batch.size() > 128 * 32 ? 2 : 0, detail = 0;
        auto first = [&](uint64_t which, auto is_so) {
            for (size_t i = 0; number == 0 && i < batch.size() / 32; i++) {
                if (is_so(i, datom_at(batch.data() + 32 * i))) {
                    number = which, detail = i;
                    return;
                }
            }
        };
        Heap used = heap();
        first(3, [](size_t, const Datom &datom) { return !is_formed(datom); });
        first(11, [&](size_t, const Datom &datom) { return !used.is_storable(datom); });
        first(4, [&](size_t i, const Datom &datom) { return i > 0 && !used.is_below(datom_at(batch.data() + 32 * i - 32), datom); });
        if (number == 0 && root != NONE && root >= count) {
            number = 5;
        }
        first(16, [&](size_t, const Datom &datom) { return !std::binary_search(there->begin(), there->end(), datom, used.below()); });
        must(answer.number == number && answer.detail == detail, "a batch is not held as it went in");
    }

    // A part of what a root holds, and one datom more now and then.
    std::vector<uint8_t> part() {
        std::vector<Datom> datoms;
        std::vector<Datom> from = held_at(root()).value_or(std::vector<Datom>());
        for (size_t i = script.byte(), by = 1 + script.below(7); i < from.size() && datoms.size() < 128; i += by) {
            datoms.push_back(by_other_word(from[i]));
        }
        if (script.below(2)) {
            datoms.push_back(script.datom(heap_length));
        }
        std::sort(datoms.begin(), datoms.end(), heap().below());
        return bytes_of(datoms);
    }

    // The datom with a constant of equal content at another offset, if there is one behind its own.
    Datom by_other_word(Datom datom) const {
        for (uint64_t word : constants) {
            bool is_equal = tag_of(word) == tag_of(datom[2]) && heap().content(word) == heap().content(datom[2]);
            datom[2] = is_equal && word > datom[2] ? word : datom[2];
        }
        return datom;
    }

    void ask() {
        Call call = good(Entry::Held);
        call.root = root();
        call.batch = script.below(4) == 0 ? batch(script.below(16) != 0) : part();
        if (script.below(8) == 0) {
            spoil(call);
            make(call);
        } else if (is_sound) {
            ask_for(call.root, call.batch);
        } else {
            make(call);
        }
    }

    void read_one() {
        Call call = good(script.below(2) ? Entry::Check : Entry::Fetch);
        call.root = root();
        if (script.below(8) == 0) {
            spoil(call);
        }
        make(call);
    }

    void list() {
        Call call = good(Entry::Start);
        call.root = root();
        put(call.lower, script.below(3) ? Datom{script.bytes(2), 0, 0, 0} : script.datom(heap_length));
        put(call.upper, script.below(3) ? Datom{NONE, NONE, NONE, NONE} : script.datom(heap_length));
        if (script.below(16) == 0) {
            spoil(call);
        }
        Answer answer = make(call);
        if (answer.number == 0) {
            cursor = answer.cursor;
            step(is_sound);
        }
    }

    // Steps from the cursor that is there, whose datoms rise if it is one of a sound tree.
    void step(bool must_rise) {
        Datom last{};
        bool is_first = true;
        for (uint64_t left = std::min<uint64_t>(script.byte(), MOST_STEPS); left > 0; left--) {
            Answer answer = make(good(Entry::Step));
            note({8, answer.number, about(word_at(cursor.data())), changes(answer.cursor, 1), changes(answer.cursor, 9) != 0});
            if (answer.number != 0) {
                must(!must_rise || answer.number == 32, "a listing of a sound tree is refused");
                return;
            }
            Datom datom = datom_at(answer.datom.data());
            must(!must_rise || is_first || heap().is_below(last, datom), "a listing does not rise");
            last = datom, is_first = false;
            cursor = answer.cursor;
        }
    }

    // Which of eight words of the cursor a step has changed.
    uint64_t changes(const std::vector<uint8_t> &next, size_t first) const {
        uint64_t changed = 0;
        for (size_t i = 0; i < 8; i++) {
            size_t at = 8 * (first + i);
            changed |= static_cast<uint64_t>(word_at(cursor.data() + at) != word_at(next.data() + at)) << i;
        }
        return changed;
    }

    // Some words of the cursor are made up: a height, small indices, pages.
    void make_up() {
        for (uint64_t changes = 1 + script.below(6); changes > 0; changes--) {
            uint64_t place = script.below(CURSOR / 8), word = script.number();
            bool is_page = place > 8 && (place < 17 || place > 24);
            word = is_page && word < 224 && count > 0 ? word % (count + 1) : place == 0 ? word % 11 : word;
            memcpy(cursor.data() + 8 * place, &word, 8);
        }
        Call call = good(Entry::Step);
        if (script.below(8) == 0) {
            spoil(call);
        }
        make(call);
        step(false);
    }

    // A byte of a page in use, mostly of its header, its children or a value.
    void damage() {
        if (count == 0) {
            return;
        }
        size_t room = capacity(size), page = script.bytes(2) % count, at = script.byte();
        size_t places[] = {40 * room + 8, 40 * room + 9, 32 * room + 8 * (at % (room + 1)) + at / 64, 32 * (at % room) + 23, at};
        is_sound = false;
        size_t place = page * size + places[script.below(5)] % size;
        uint8_t byte = script.byte();
        twice.poke(place, byte);
        named.poke(place, byte);
    }

    // One that reads, in an order that the store is not written in: nothing is promised of it but that the rules answer.
    void read_otherwise() {
        uint64_t own = order;
        bool was_sound = is_sound;
        order = (order + 1 + script.below(ORDERS - 1)) % ORDERS, is_sound = false;
        switch (script.below(4)) {
        case 0: list(); break;
        case 1: read_one(); break;
        case 2: make_up(); break;
        default: ask();
        }
        order = own, is_sound = was_sound;
    }

    void run() {
        for (size_t calls = 0; calls < MOST_CALLS && !script.is_over(); calls++) {
            uint8_t what = script.byte();
            if (what >= OTHER_ORDER && what < OTHER_ORDER + 2) {
                read_otherwise();
                continue;
            }
            if (what >= NEW) {
                what % 8 < 6 ? append() : damage_heap();
                continue;
            }
            switch (what % 8) {
            case 0: case 1: case 2: write(); break;
            case 3: list(); break;
            case 4: read_one(); break;
            case 5: make_up(); break;
            case 6: ask(); break;
            default: damage();
            }
        }
    }
};

}

extern "C" int LLVMFuzzerTestOneInput(const uint8_t *data, size_t length) {
    static World world{Script(nullptr, 0), {}, {}, 256, 0, 0, 0, 0, {}, {}, {}, true, 0, {}};
    world.begin(data, length);
    world.run();
    return 0;
}
