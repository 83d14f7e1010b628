// The wrapper: values and their order, spans, batches of every kind, answers by name, listings that tell their end from a refusal.
#include "florinwick.hpp"

#include <algorithm>
#include <array>
#include <cstdio>
#include <initializer_list>
#include <iterator>
#include <random>
#include <string>
#include <type_traits>
#include <vector>
#if __cplusplus >= 202002L
#include <ranges>
#endif

using namespace florinwick;

namespace {

int failures = 0;

void expect(int line, bool holds) {
    if (holds) return;
    std::printf("line %d\n", line);
    ++failures;
}
#define EXPECT(holds) expect(__LINE__, (holds))

Datom d(std::uint64_t k) { return *Datom::asserted(k, 1, *Value::integer(k), 2); }

std::vector<Datom> run(std::uint64_t from, std::size_t count) {
    std::vector<Datom> datoms;
    for (std::uint64_t k = from; k < from + count; ++k) datoms.push_back(d(k));
    return datoms;
}

std::vector<Record> records_of(const std::vector<Datom> &datoms) {
    std::vector<Record> records;
    for (const Datom &datom : datoms) {
        records.push_back({datom.entity, datom.attribute, datom.value.word, datom.transaction_operation});
    }
    return records;
}

std::vector<std::uint8_t> bytes_of(const std::vector<Datom> &datoms) {
    std::vector<std::uint8_t> bytes(datoms.size() * Datom::size);
    for (std::size_t i = 0; i < datoms.size(); ++i) datoms[i].write(bytes.data() + i * Datom::size);
    return bytes;
}

// A store with its memory, of 256-byte pages.
struct Tree {
    explicit Tree(std::size_t pages, Order order = Order::Eavt) : bytes(pages * 256), store(bytes, 256, order, scratch) {}
    std::vector<std::uint8_t> bytes;
    std::vector<std::uint8_t> scratch = std::vector<std::uint8_t>(Store::scratch_need(256));
    Store store;
};

Batch batch_of(std::initializer_list<std::uint64_t> entities) {
    Batch batch;
    for (std::uint64_t k : entities) EXPECT(batch.add(d(k)));
    return batch;
}

void batches() {
    Batch batch;
    for (std::uint64_t k = 0; k < 128; ++k) EXPECT(batch.add(d(k)));
    EXPECT(!batch.add(d(128)) && batch.size() == 128 && ByteView(batch).size() == 4096 && batch[127] == d(127));
    batch.clear();
    EXPECT(batch.size() == 0 && ByteView(batch).empty() && batch.add(d(1)) && batch[0] == d(1));
    // Bytes from elsewhere: an array, a vector, a part of one; what may be changed also as what may not.
    std::array<std::uint8_t, 64> array{};
    std::vector<std::uint8_t> vector(64);
    const std::vector<std::uint8_t> constant(32);
    std::uint8_t plain[32] = {};
    EXPECT(ByteView(array).size() == 64 && ByteView(vector).from(32).size() == 32 && ByteView(constant).size() == 32 && ByteView(plain).size() == 32);
    EXPECT(ByteView(ByteArea(vector).first(3)).data() == vector.data());
}

// Bytes by another name, and what may not be seen as bytes.
void other_bytes() {
    std::vector<std::byte> bytes(32);
    std::string text = "bytes";
    std::byte plain[8] = {};
    EXPECT(static_cast<const void *>(ByteView(bytes).data()) == bytes.data() && ByteArea(bytes).size() == 32);
    EXPECT(ByteView(text).size() == 5 && ByteView(std::string_view(text))[0] == 'b' && ByteView(plain).size() == 8);
    ByteArea{text}[0] = 'B';
    ByteArea{bytes}[1] = 7;
    EXPECT(text == "Bytes" && bytes[1] == std::byte{7});
    static_assert(!std::is_constructible_v<ByteArea, const std::vector<std::byte> &> && !std::is_constructible_v<ByteArea, std::string_view>);
    static_assert(!std::is_constructible_v<ByteView, std::vector<std::uint16_t> &> && !std::is_constructible_v<ByteView, const char (&)[4]>);
    struct Buffer {
        void *data();
        std::size_t size();
    };
    static_assert(!std::is_constructible_v<ByteView, Buffer &> && !std::is_constructible_v<ByteView, std::vector<Datom> &>);

    // A store in std::byte is a store.
    std::vector<std::byte> room(4 * 256), scratch(Store::scratch_need(256));
    Store store(room, 256, scratch);
    EXPECT(store.insert(run(0, 3)).done() && room[0] != std::byte{0xff} && store.reader().check(store.root()).done());
}

// Nothing that outlives a call can be made of a temporary that owns its bytes. What a call is given may be one.
void temporaries() {
    using Bytes = std::vector<std::uint8_t>;
    static_assert(std::is_constructible_v<Store, Bytes &, std::uint64_t, Bytes &>);
    static_assert(!std::is_constructible_v<Store, Bytes, std::uint64_t, Bytes &>);
    static_assert(!std::is_constructible_v<Store, Bytes &, std::uint64_t, Bytes>);
    static_assert(!std::is_constructible_v<Reader, Bytes, std::uint64_t, std::uint64_t>);
    static_assert(std::is_constructible_v<Store, Bytes &, Bytes &, StoreRecord, Bytes &>);
    static_assert(!std::is_constructible_v<Store, Bytes &, Bytes, StoreRecord, Bytes &>);
    static_assert(!std::is_constructible_v<Reader, Bytes &, Bytes, StoreRecord> && !std::is_constructible_v<HeapView, Bytes, std::uint64_t>);
    static_assert(!std::is_constructible_v<ByteView, Bytes> && !std::is_constructible_v<ByteView, std::array<std::uint8_t, 4>>);
    static_assert(!std::is_constructible_v<ByteView, std::string> && !std::is_constructible_v<ByteView, Batch>);
    static_assert(!std::is_constructible_v<Span<const Datom>, std::vector<Datom>>);
    static_assert(std::is_constructible_v<ByteView, ByteArea> && std::is_constructible_v<ByteView, std::string_view>);
    static_assert(std::is_constructible_v<BatchArgument, Bytes> && std::is_constructible_v<BatchArgument, std::vector<Datom>>);
    static_assert(!std::is_copy_constructible_v<BatchArgument>);
    static_assert(!std::is_convertible_v<Text, std::string_view> && std::is_convertible_v<Text &, std::string_view>);
#if __cplusplus >= 202002L
    static_assert(std::is_constructible_v<ByteView, std::span<const std::byte>>);
#endif
}

void values() {
    EXPECT(Value::integer((std::uint64_t{1} << 62) - 1).has_value());
    EXPECT(!Value::integer(std::uint64_t{1} << 62));
    EXPECT(Value::text("a")->word == 0x8100000000000061u);
    EXPECT(Value::text("")->word == 0x8000000000000000u);
    EXPECT(Value::text("1234567").has_value() && !Value::text("12345678"));
    EXPECT(Value::text("\xff")->is_text() && Value::text("\xff")->text_byte(0) == '\xff');
    EXPECT(Value::max().is_max() && !Value::max().is_text() && !Value::max().is_integer());
    EXPECT(!Value{0x8100000000000161u}.is_text() && !Value{0x8800000000000000u}.is_text() && !Value{0xc000000000000000u}.is_text());
    EXPECT(d(5).transaction() == 2 && d(5).is_assert());
    EXPECT(Datom::retracted(5, 1, Value{5}, 2) == (Datom{5, 1, Value{5}, 2}) && !Datom::retracted(5, 1, Value{5}, 2)->is_assert());
    EXPECT(!Datom::asserted(5, 1, Value{5}, 7) && !Datom::retracted(5, 1, Value{5}, 7));
    EXPECT(d(5) == d(5) && d(5) != d(6));
    EXPECT(version == FLORINWICK_VERSION && version.substr(0, version.find('.')) == std::to_string(FLORINWICK_VERSION_MAJOR));
}

// What is in a value, by its kind.
void getters() {
    EXPECT(Value{13142}.as_integer() == 13142u && !Value{13142}.as_text());
    EXPECT(!Value::max().as_integer() && !Value::max().as_text() && !Value{0x8100000000000161u}.as_text());
    const auto symbol = Value::text("FGBL")->as_text();
    EXPECT(symbol && symbol->size() == 4 && symbol->view() == "FGBL" && *symbol == "FGBL" && *symbol != "FGBM");
    EXPECT(*symbol == *Value::text("FGBL")->as_text() && *symbol != *Value::text("")->as_text() && *symbol == std::string("FGBL"));
    EXPECT(std::string(*symbol) == "FGBL" && !Value::text("FGBL")->as_integer());
    EXPECT(Value::text("")->as_text()->size() == 0 && *Value::text("1234567")->as_text() == "1234567");
    const std::string_view zeros("\0a\0", 3);
    EXPECT(*Value::text(zeros)->as_text() == zeros);
}

Value random_value(std::mt19937_64 &random) {
    static const char bytes[] = {'\0', 'a', 'b', '\x7f', '\x80', '\xff'};
    if (random() % 3 == 0) return *Value::integer(random() % 2 ? random() % 5 : random() >> 2);
    std::string text(random() % 8, ' ');
    for (char &byte : text) byte = bytes[random() % sizeof bytes];
    return *Value::text(text);
}

// Few entities and attributes, so that every part of a datom decides somewhere.
std::vector<Datom> random_datoms(std::size_t count) {
    std::mt19937_64 random(1);
    std::vector<Datom> datoms;
    for (std::size_t i = 0; i < count; ++i) {
        datoms.push_back({random() % 4, random() % 3, random_value(random), random() % 2 ? random() % 4 : random()});
    }
    std::sort(datoms.begin(), datoms.end());
    datoms.erase(std::unique(datoms.begin(), datoms.end()), datoms.end());
    return datoms;
}

// A store takes batches that rise as InOrder sorts them, and lists so.
void order_of_words(std::vector<Datom> sorted, Order order) {
    std::vector<Datom> shuffled = sorted;
    std::sort(sorted.begin(), sorted.end(), InOrder{order});
    std::shuffle(shuffled.begin(), shuffled.end(), std::mt19937_64(2));
    Tree tree(20000, order);
    for (std::size_t at = 0; at < shuffled.size(); at += 100) {
        const Span<Datom> batch(shuffled.data() + at, std::min<std::size_t>(100, shuffled.size() - at));
        std::sort(batch.begin(), batch.end(), InOrder{order});
        EXPECT(tree.store.insert(batch).done());
    }
    const Reader reader = tree.store.reader();
    Listing listing = reader.list(tree.store.root());
    EXPECT(sorted.size() > 5000 && std::equal(listing.begin(), listing.end(), sorted.begin(), sorted.end()) && listing.ended());
    EXPECT(reader.order() == order && reader.check(tree.store.root()).done());
    // Between any two of them, as bounds.
    std::mt19937_64 random(5);
    for (int i = 0; i < 50; ++i) {
        const std::size_t from = random() % sorted.size(), to = from + random() % (sorted.size() - from);
        Listing part = reader.list(tree.store.root(), sorted[from], sorted[to]);
        EXPECT(std::equal(part.begin(), part.end(), sorted.begin() + static_cast<std::ptrdiff_t>(from), sorted.begin() + static_cast<std::ptrdiff_t>(to)));
    }
}

// The order of the operators is the library's, and InOrder has all three.
void order() {
    EXPECT(*Value::text("ab") < *Value::text("b") && *Value::text("a") < *Value::text({"a\0", 2}));
    EXPECT(*Value::text("") < *Value::text({"\0", 1}));
    EXPECT(*Value::integer(Value::integer_end - 1) < *Value::text("") && *Value::text("\xff\xff\xff\xff\xff\xff\xff") < Value::max());
    EXPECT(Value{1} <= Value{1} && Value{1} >= Value{1} && Value{2} > Value{1} && Value{1} != Value{2} && Value{3} == Value{3});
    EXPECT(Datom::min() < d(0) && d(0) < Datom::max() && d(1) > d(0) && d(1) >= d(1) && d(1) <= d(1));
    // A word that is no value stands behind all strings, whatever its bits.
    EXPECT(*Value::text("\xff") < Value{0x8100000000000161u} && Value{0x8100000000000161u} < Value::max());
    EXPECT(*Value::text("") < Value{Value::integer_end});

    const std::vector<Datom> datoms = random_datoms(6000);
    for (const Order each : orders) order_of_words(datoms, each);
    EXPECT(std::is_sorted(datoms.begin(), datoms.end(), InOrder{}));
}

// By which parts each order goes, told by pairs of datoms that differ in few of them.
void parts_of_orders() {
    const Datom first{1, 2, Value{2}, 3}, second{2, 1, Value{3}, 3}, third{3, 1, Value{1}, 3};
    EXPECT(InOrder{}(first, second) && InOrder{Order::Eavt}(second, third) && first < second && second < third);
    EXPECT(InOrder{Order::Aevt}(second, third) && InOrder{Order::Aevt}(third, first));
    EXPECT(InOrder{Order::Avet}(third, second) && InOrder{Order::Avet}(second, first));
    for (const Order each : orders) {
        const InOrder less{each};
        const ByContent by_content{HeapView(), each};
        const Datom base{5, 5, Value{5}, 5};
        EXPECT(!less(base, base) && less(Datom::min(), base) && less(base, Datom::max()));
        for (const Datom &above : {Datom{6, 5, Value{5}, 5}, Datom{5, 6, Value{5}, 5}, Datom{5, 5, Value{6}, 5}, Datom{5, 5, Value{5}, 6}}) {
            EXPECT(less(base, above) && !less(above, base) && HeapView().compare(base, above, each) < 0 && by_content(base, above));
        }
    }
    static_assert(order_of(0) == Order::Eavt && order_of(1) == Order::Aevt && order_of(2) == Order::Avet && !order_of(3) && !order_of(UINT64_MAX));
    static_assert(name(Order::Eavt) == "eavt" && name(Order::Aevt) == "aevt" && name(Order::Avet) == "avet" && std::size(orders) == 3);
    static_assert(StoreRecord::of(256).order == Order::Eavt && StoreRecord::of(256, Order::Avet).order == Order::Avet);
    static_assert(StoreRecord{256}.order == Order::Eavt && StoreRecord::of(256, Order::Avet).page_size == 256);
    EXPECT(name(static_cast<Order>(3)) == "unknown" && Tree(1, Order::Aevt).store.order() == Order::Aevt);
}

// The order is given once, and every call goes by it; a number that no order has is refused by all of them, and changes nothing.
void bad_orders() {
    Tree tree(16);
    EXPECT(tree.store.insert(run(0, 20)).done());
    const std::vector<std::uint8_t> before = tree.bytes;
    const std::uint64_t root = tree.store.root(), pages = tree.store.page_count();
    const StoreRecord unknown{256, pages, 0, static_cast<Order>(3)};
    Store store(tree.bytes, ByteArea(), unknown, tree.scratch, root);
    const Reader reader = store.reader();
    const auto is_refused = [](const Answer &answer) { return answer.number == Number::BadOrder && answer.carries() == Carries::Nothing; };
    EXPECT(is_refused(store.insert(run(20, 1))) && is_refused(store.initialise(run(20, 1))) && is_refused(store.insert_at(99, run(0, 129))));
    EXPECT(is_refused(reader.held(root, run(0, 1))) && is_refused(reader.check(99)) && is_refused(reader.list(99).answer()));
    EXPECT(store.root() == root && store.page_count() == pages && tree.bytes == before && reader.refusal(0).done());
    // The wrapper makes every listing with a start, so a step meets the number only where the start has.
    EXPECT(Store(tree.bytes, 257, static_cast<Order>(3), tree.scratch).insert({}).number == Number::BadStore);
    // In another order than its own a tree is no tree.
    const Reader other(tree.bytes, 256, pages, Order::Avet);
    Tree mixed(16, Order::Aevt);
    EXPECT(mixed.store.insert({Datom{2, 1, Value{1}, 3}, Datom{1, 2, Value{1}, 3}}).done());
    EXPECT(mixed.store.insert({Datom{1, 3, Value{1}, 3}, Datom{2, 1, Value{2}, 3}}).number == Number::OutOfOrder);
    EXPECT(mixed.store.reader().check(0).done() && Reader(mixed.bytes, 256, 1).check(0).fault == Fault::Order);
    EXPECT(other.order() == Order::Avet && other.check(root).done());   // entities and values rise together, so this one is
}

void answers() {
    EXPECT(std::string(name_of(Number::Repeated)) == "Repeated" && carried_by(Number::Repeated) == Carries::Index);
    EXPECT(std::string(name_of(Number::Unsound)) == "Unsound" && carried_by(Number::Unsound) == Carries::Page);
    EXPECT(carried_by(Number::NoRoom) == Carries::Nothing);
    EXPECT(std::string(name_of(Number::NotHeld)) == "NotHeld" && carried_by(Number::NotHeld) == Carries::Index);
    EXPECT(std::string(name_of(Number::BadConstant)) == "BadConstant" && carried_by(Number::BadConstant) == Carries::Index);
    EXPECT(std::string(name_of(Number::HeapFull)) == "HeapFull" && carried_by(Number::HeapFull) == Carries::Nothing);
    EXPECT(std::string(name_of(Number::BadOrder)) == "BadOrder" && carried_by(Number::BadOrder) == Carries::Nothing);
    EXPECT(std::string(name_of(static_cast<Number>(14))) == "unknown");
}

// The words of an answer, as the library writes them.
Answer answer_of(std::uint64_t number, std::uint64_t second) {
    std::uint8_t words[FLORINWICK_ANSWER_BYTES] = {};
    put_word(words, number);
    put_word(words + 16, second);
    put_word(words + 24, 5);
    return Answer::read(words);
}

// A fault stands where the number is Damaged or Unsound, and nowhere else; a number that has no name here is none.
void faults() {
    static_assert(name(Fault::Level) == "Level" && name(Fault::NothingLeft) == "NothingLeft" && text(Fault::Level) == "its level is over 7");
    static_assert(fault_of(1) == Fault::Level && fault_of(7) == Fault::ChildId && fault_of(14) == Fault::NothingLeft);
    static_assert(!fault_of(0) && !fault_of(15) && !fault_of(UINT64_MAX));
    std::vector<std::string_view> names, texts;
    for (std::uint64_t number = 1; number <= 14; ++number) {
        names.push_back(name(*fault_of(number)));
        texts.push_back(text(*fault_of(number)));
        const Answer damaged = answer_of(7, number), unsound = answer_of(33, number);
        EXPECT(damaged.fault == fault_of(number) && damaged.pages == 0 && damaged.detail == 5 && !damaged.done());
        EXPECT(unsound.fault == fault_of(number) && unsound.pages == 0 && unsound.detail == 5);
    }
    for (auto *words : {&names, &texts}) {
        std::sort(words->begin(), words->end());
        EXPECT(std::adjacent_find(words->begin(), words->end()) == words->end());
        EXPECT(std::find(words->begin(), words->end(), "unknown") == words->end());
    }
    EXPECT(name(static_cast<Fault>(15)) == "unknown" && text(static_cast<Fault>(0)) == "unknown");
    EXPECT(!answer_of(7, 0).fault && !answer_of(7, 15).fault && !answer_of(33, UINT64_MAX).fault && answer_of(7, 15).pages == 0);
    for (unsigned number : {0u, 1u, 2u, 3u, 4u, 5u, 6u, 8u, 9u, 10u, 13u, 16u, 32u}) EXPECT(!answer_of(number, 3).fault && answer_of(number, 3).pages == 3);
}

// Every call of the wrapper that reads pages passes the fault on; a batch in any form.
void damaged_pages() {
    Tree tree(16);
    EXPECT(tree.store.insert(run(0, 7)).root == 2);
    const std::uint8_t before = tree.bytes[256 + 249];
    tree.bytes[256 + 249] = 200;
    const auto names_count = [](const Answer &answer, Number number) {
        return answer.number == number && answer.fault == Fault::Count && answer.detail == 1 && answer.pages == 0;
    };
    const std::vector<Datom> batch = {d(20)};
    EXPECT(names_count(tree.store.insert(batch), Number::Damaged) && names_count(tree.store.insert_at(2, batch), Number::Damaged));
    EXPECT(names_count(tree.store.insert(records_of(batch)), Number::Damaged) && names_count(tree.store.insert(bytes_of(batch)), Number::Damaged));
    EXPECT(tree.store.root() == 2 && tree.store.page_count() == 3);
    const Reader reader = tree.store.reader();
    EXPECT(names_count(reader.held(2, batch), Number::Damaged) && names_count(reader.check(2), Number::Unsound));
    EXPECT(names_count(reader.list(2, d(5)).answer(), Number::Damaged));
    tree.bytes[256 + 249] = before;
    EXPECT(!reader.check(2).fault && !reader.held(2, batch).fault && !tree.store.insert(run(6, 1)).fault && !reader.list(2).answer().fault);
    EXPECT(tree.store.insert(records_of(batch)).pages == 1 && BatchArgument(records_of(batch)).records().size() == 1);
}

// Every datom, and how the listing ended.
std::vector<std::uint64_t> listed(Listing listing, Answer &last) {
    std::vector<std::uint64_t> entities;
    for (const Datom &datom : listing) entities.push_back(datom.entity);
    last = listing.answer();
    EXPECT(listing.ended() == (last.number == Number::Ended));
    return entities;
}

// Every page size that the header names is the library's, and no neighbour of one is.
void sizes() {
    EXPECT(std::size(page_sizes) == 4 && Store::scratch_need(0) == 0);
    for (const std::uint64_t size : page_sizes) {
        EXPECT(Store::scratch_need(size) > 0 && Store::scratch_need(size - 1) == 0 && Store::scratch_need(size + 1) == 0);
        std::vector<std::uint8_t> bytes(128 * size), scratch(Store::scratch_need(size));
        Store store(bytes, size, scratch);
        EXPECT(store.insert(run(0, 128)).done() && store.insert(run(128, 128)).done() && store.reader().check(store.root()).done());
        Answer last;
        EXPECT(listed(store.reader().list(store.root()), last).size() == 256 && last.number == Number::Ended);
        // One byte of scratch less is BadStore.
        Store short_of_scratch(bytes, size, ByteArea(scratch).first(scratch.size() - 1), store.page_count(), store.root());
        EXPECT(short_of_scratch.insert(run(256, 1)).number == Number::BadStore);
    }
}

void trees() {
    std::vector<std::uint8_t> bytes(16 * 256), scratch(Store::scratch_need(256));
    Store store(bytes, 256, scratch);
    EXPECT(store.root() == none && store.page_count() == 0);
    EXPECT(store.insert({}).done() && store.root() == none);

    Answer answer = store.initialise(batch_of({3, 1, 0, 2, 6, 5, 4}));
    EXPECT(answer.done() && answer.root == 2 && answer.pages == 3 && store.root() == 2 && store.page_count() == 3);
    const Batch second = batch_of({7, 8, 9});
    answer = store.insert(second);
    EXPECT(answer && store.root() == 3 && store.page_count() == 4);

    answer = store.insert(second);
    EXPECT(!answer && answer.number == Number::Repeated && answer.detail == 0 && store.root() == 3 && store.page_count() == 4);
    answer = store.insert_at(7, second);
    EXPECT(answer.number == Number::NoPage && answer.root == 7 && store.root() == 3);

    const Reader reader = store.reader();
    Answer last;
    EXPECT((listed(reader.list(3), last) == std::vector<std::uint64_t>{0, 1, 2, 3, 4, 5, 6, 7, 8, 9} && last.number == Number::Ended));
    EXPECT((listed(reader.list(2, d(5), d(8)), last) == std::vector<std::uint64_t>{5, 6}));
    EXPECT(listed(reader.list(none), last).empty() && last.number == Number::Ended);
    EXPECT(listed(reader.list(4), last).empty() && last.number == Number::NoPage);
    EXPECT(listed(reader.list(3, Datom{1, 1, Value{std::uint64_t{1} << 62}, 0}), last).empty() && last.number == Number::BadBound);

    // A copy goes on by itself from where the listing stands.
    Listing listing = reader.list(3);
    for (const Datom &datom : listing) {
        if (datom.entity == 4) break;
    }
    EXPECT((listed(listing, last) == std::vector<std::uint64_t>{5, 6, 7, 8, 9}));
    EXPECT((listed(listing, last) == std::vector<std::uint64_t>{5, 6, 7, 8, 9}));

    // The older root and the older reader go on seeing what they saw, and the page is that very part of the store.
    EXPECT(store.insert({}).done() && store.page_count() == 5 && reader.page_count() == 4);
    EXPECT(reader.refusal(4).number == Number::NoPage && reader.fetch(4).empty());
    EXPECT(reader.fetch(3).data() == bytes.data() + 3 * 256 && reader.fetch(3).size() == 256);
    EXPECT(reader.check(3).done() && reader.check(none).done());

    // More room: the same pages in more bytes.
    Store small(Span<std::uint8_t>(bytes).first(5 * 256), 256, scratch, store.page_count(), store.root());
    EXPECT(small.insert(batch_of({20})).number == Number::NoRoom && small.page_count() == 5);
    small.lend(bytes);
    EXPECT(small.insert(batch_of({20})).done() && small.page_count() == 6);

    // A refusal breaks a loop off, and is told from its end.
    Batch twenty;
    for (std::uint64_t k = 0; k < 20; ++k) EXPECT(twenty.add(d(k)));
    Store damaged(bytes, 256, scratch);
    EXPECT(damaged.initialise(twenty).root == 4);
    EXPECT(listed(damaged.reader().list(4), last).size() == 20 && last.number == Number::Ended);
    bytes[256 + 249] = 200;
    EXPECT((listed(damaged.reader().list(4), last) == std::vector<std::uint64_t>{0, 1, 2, 3, 4}));
    EXPECT(last.number == Number::Damaged && last.detail == 1 && last.fault == Fault::Count);
    EXPECT(damaged.reader().check(4).number == Number::Unsound && damaged.reader().check(4).detail == 1);
}

// One batch in every form that a caller may have it in: the same answer and the same bytes.
void forms_of_a_batch() {
    const std::vector<Datom> datoms = run(0, 20);
    const std::vector<std::uint8_t> bytes = bytes_of(datoms);
    const std::vector<Record> records = records_of(datoms);
    Tree expected(16);
    EXPECT(expected.store.insert(ByteView(bytes)).done() && expected.store.page_count() > 1);
    const auto as_expected = [&](const BatchArgument &batch) {
        Tree tree(16);
        return tree.store.insert(batch).done() && tree.store.root() == expected.store.root() && tree.bytes == expected.bytes;
    };
    EXPECT(as_expected(datoms) && as_expected(records) && as_expected(bytes) && as_expected({datoms.data(), datoms.size()}));
    EXPECT(as_expected(run(0, 20)) && as_expected(records_of(datoms)) && as_expected(bytes_of(datoms)));
    EXPECT(as_expected(std::string(bytes.begin(), bytes.end())) && as_expected({bytes.data(), bytes.size()}));
    Tree made(16), listed(16);
    EXPECT(made.store.initialise(std::vector<Datom>(datoms.rbegin(), datoms.rend())).done() && made.bytes == expected.bytes);
    EXPECT(listed.store.insert({d(0), d(1)}).done() && listed.store.insert({}).done());
    EXPECT(listed.store.insert({d(1)}).number == Number::Repeated);
    EXPECT(listed.store.insert(std::vector<Datom>()).done() && listed.store.insert(std::vector<Record>()).done());
    const Datom array[] = {d(2), d(3)};
    std::byte array_of_bytes[Datom::size] = {};
    EXPECT(listed.store.insert(array).done() && listed.store.insert(std::array<Datom, 2>{d(4), d(5)}).done());
    EXPECT(listed.store.insert(array_of_bytes).done() && listed.store.insert(Span<const Datom>(array)).number == Number::Repeated);
    static_assert(!std::is_constructible_v<BatchArgument, const char (&)[33]> && !std::is_constructible_v<BatchArgument, std::vector<int>>);

    // How many are too many is said by the library, in its order of refusals.
    const std::vector<Datom> largest = run(0, 128), too_many = run(0, 129), far_too_many = run(0, 1000);
    Tree tree(128);
    EXPECT(tree.store.insert(too_many).number == Number::TooMany && tree.store.insert(records_of(too_many)).number == Number::TooMany);
    EXPECT(tree.store.insert(far_too_many).number == Number::TooMany && tree.store.initialise(far_too_many).number == Number::TooMany);
    EXPECT(Store(tree.bytes, 257, tree.scratch).insert(far_too_many).number == Number::BadStore);
    EXPECT(tree.store.insert(largest).done() && tree.store.insert(run(128, 128)).done());

    // Laid anew, as on a machine with another order of bytes.
    detail::Laid<true> where_they_lie;
    detail::Laid<false> anew;
    const ByteView laid = anew.of(Span<const Datom>(datoms));
    EXPECT(std::equal(laid.begin(), laid.end(), bytes.begin(), bytes.end()));
    const ByteView laid_records = anew.of(Span<const Record>(records));
    EXPECT(std::equal(laid_records.begin(), laid_records.end(), bytes.begin(), bytes.end()));
    const ByteView laid_far_too_many = anew.of(Span<const Datom>(far_too_many));
    EXPECT(laid_far_too_many.size() == 129 * Datom::size && tree.store.insert(laid_far_too_many).number == Number::TooMany);
    EXPECT(!detail::lies_as_bytes || where_they_lie.of(Span<const Datom>(datoms)).size() == bytes.size());
}

// Listings in the hands of the standard library.
void iterators() {
    using Iterator = Listing::Iterator;
    static_assert(std::is_same_v<std::iterator_traits<Iterator>::iterator_category, std::input_iterator_tag>);
    static_assert(std::is_same_v<decltype(std::declval<Listing &>().begin()), decltype(std::declval<Listing &>().end())>);
    const std::vector<Datom> datoms = run(0, 20);
    Tree tree(16);
    EXPECT(tree.store.insert(datoms).done());
    const auto list = [&] { return tree.store.reader().list(tree.store.root()); };

    Listing listing = list();
    EXPECT(std::vector<Datom>(listing.begin(), listing.end()) == datoms && listing.ended());
    Listing counted = list();
    EXPECT(std::distance(counted.begin(), counted.end()) == 20 && counted.begin() == counted.end());
    Listing searched = list();
    const Iterator found = std::find_if(searched.begin(), searched.end(), [](const Datom &datom) { return datom.entity == 7; });
    EXPECT(found != searched.end() && *found == d(7) && found->entity == 7 && found == found && !searched.ended());
    Iterator passing = found;
    EXPECT(*passing++ == d(7) && *passing == d(8) && *++passing == d(9) && passing != Iterator() && Iterator() == searched.end());
    Listing refused = tree.store.reader().list(99);
    EXPECT(std::distance(refused.begin(), refused.end()) == 0 && refused.answer().number == Number::NoPage);
#if __cplusplus >= 202002L
    static_assert(std::input_iterator<Iterator> && std::sentinel_for<Iterator, Iterator> && std::ranges::input_range<Listing>);
    Listing ranged = list();
    std::uint64_t sum = 0;
    for (const Datom &datom : ranged | std::views::filter([](const Datom &each) { return each.entity % 2 == 0; }) | std::views::take(3)) {
        sum += datom.entity;
    }
    EXPECT(sum == 0 + 2 + 4);
    EXPECT(std::ranges::count_if(list(), &Datom::is_assert) == 20 && std::ranges::is_sorted(run(0, 9)));
#endif
}

// Which datoms of a batch the tree holds.
void held() {
    Tree tree(16);
    EXPECT(tree.store.insert(run(0, 20)).done());
    const Reader reader = tree.store.reader();
    const std::uint64_t root = tree.store.root();
    EXPECT(reader.held(root, run(3, 10)).done() && reader.held(root, {}).done() && reader.held(root, batch_of({0, 19})).done());
    Answer answer = reader.held(root, run(15, 10));
    EXPECT(answer.number == Number::NotHeld && answer.detail == 5 && answer.carries() == Carries::Index && !answer);
    answer = reader.held(root, {d(3), d(21)});
    EXPECT(answer.number == Number::NotHeld && answer.detail == 1 && reader.held(none, {d(3)}).number == Number::NotHeld);
    EXPECT(reader.held(root, records_of(run(0, 20))).done() && reader.held(root, bytes_of(run(0, 20))).done());
    EXPECT(reader.held(root, run(0, 129)).number == Number::TooMany && reader.held(99, {d(3)}).number == Number::NoPage);
    EXPECT(reader.held(root, {d(4), d(3)}).number == Number::OutOfOrder);
}

// A store with a heap of its own.
struct LongTree {
    LongTree(std::size_t pages, std::size_t heap_bytes, Order order = Order::Eavt)
        : bytes(pages * 256), heap(heap_bytes), store(bytes, heap, StoreRecord::of(256, order), scratch) {}
    std::vector<std::uint8_t> bytes, heap;
    std::vector<std::uint8_t> scratch = std::vector<std::uint8_t>(Store::scratch_need(256));
    Store store;
};

const std::uint64_t kLarge = std::uint64_t{1} << 63;

// Values of any length go in by one call, and are read by another.
void put_values() {
    LongTree tree(16, 48);
    const Put inline_text = tree.store.put("FGBL"), inline_integer = tree.store.put(5);
    EXPECT(inline_text && inline_text.value == *Value::text("FGBL") && inline_text.bytes == 0 && inline_integer.value == Value{5});
    EXPECT(tree.store.record().heap_length == 0 && tree.store.heap().length() == 0);
    const Put text = tree.store.put("an order text"), integer = tree.store.put(kLarge);
    EXPECT(text.done() && text.bytes == 24 && text.value.names_text() && text.value.offset() == 0 && !text.value.is_text());
    EXPECT(integer.done() && integer.bytes == 8 && integer.value.names_integer() && integer.value.offset() == 24 && !integer.value.is_integer());
    EXPECT(tree.store.record().heap_length == 32 && tree.store.record().page_count == 0 && !text.value.as_text() && !integer.value.as_integer());

    const HeapView heap = tree.store.heap();
    const auto read = heap.text_of(text.value), read_inline = heap.text_of(inline_text.value);
    EXPECT(read && read->view() == "an order text" && *read == "an order text" && read->size() == 13 && read_inline && *read_inline == "FGBL");
    EXPECT(heap.integer_of(integer.value) == kLarge && heap.integer_of(inline_integer.value) == 5u);
    EXPECT(!heap.integer_of(text.value) && !heap.text_of(integer.value) && !heap.text_of(Value::max()));
    EXPECT(heap.kind_of(text.value) == Kind::Text && heap.kind_of(integer.value) == Kind::Integer && heap.kind_of(inline_text.value) == Kind::Text);
    EXPECT(heap.kind_of(Value::max()) == Kind::Max && heap.kind_of(Value{0x8100000000000161u}) == Kind::Malformed);
    EXPECT(HeapView().kind_of(text.value) == Kind::BadConstant && HeapView(tree.heap, 24).kind_of(integer.value) == Kind::BadConstant);
    EXPECT(HeapView(tree.heap, 49).length() == 0 && heap.constant_of(text.value).size() == 24 && heap.constant_of(Value{5}).empty());
    for (std::uint64_t offset : {1u, 4u, 8u, 16u, 32u}) EXPECT(heap.kind_of(Value{std::uint64_t{3} << 62 | offset}) == Kind::BadConstant);

    // No room: nothing has changed, and with more of it the same goes in.
    const Put refused = tree.store.put("another order text");
    EXPECT(refused.number == Number::HeapFull && !refused && refused.value == Value{} && std::string(refused.name()) == "HeapFull");
    EXPECT(tree.store.record().heap_length == 32 && tree.store.put("an order").done() && tree.store.put(kLarge).number == Number::HeapFull);
    std::vector<std::uint8_t> more(tree.heap);
    more.resize(96);
    tree.store.lend_heap(more);
    EXPECT(tree.store.put("another order text").done() && *tree.store.heap().text_of(text.value) == "an order text");
    StoreRecord bad{256, 0, 4};
    EXPECT(put(more, bad, "an order text").number == Number::BadStore && bad.heap_length == 4 && put(more, bad, "short").done());
}

// The record moves on with what is Done, and with nothing else.
void records() {
    const StoreRecord record{256, 3, 16};
    const StoreRecord pages = record_after(record, Answer{Number::Done, 5, 2, 0}), refused = record_after(record, Answer{Number::NoRoom, 5, 0, 0});
    EXPECT(pages.page_count == 5 && pages.heap_length == 16 && pages.page_size == 256 && refused.page_count == 3);
    const StoreRecord longer = record_after(record, Put{Number::Done, Value{}, 24});
    EXPECT(longer.heap_length == 40 && longer.page_count == 3 && record_after(record, Put{Number::HeapFull, Value{}, 0}).heap_length == 16);
    const StoreRecord by_value{256, 3, 16, Order::Avet};
    EXPECT(record_after(by_value, Answer{Number::Done, 5, 2, 0}).order == Order::Avet && pages.order == Order::Eavt);
    EXPECT(record_after(by_value, Put{Number::Done, Value{}, 24}).order == Order::Avet);
}

// Few and similar, so that short and long ones share beginnings, and some contents lie on the heap twice.
Put random_put(Store &store, std::mt19937_64 &random) {
    static const char bytes[] = {'\0', 'a', '\xff'};
    if (random() % 3 == 0) return store.put(random() % 2 ? random() % 5 : kLarge + random() % 5);
    std::string text(random() % 5 + 5, 'a');
    text.back() = bytes[random() % 3];
    return store.put(text);
}

// The order of ByContent is the library's, and equal content is one value wherever it lies.
void order_by_content(Order order) {
    LongTree tree(20000, 200000, order);
    std::mt19937_64 random(3);
    std::vector<Datom> datoms;
    for (int i = 0; i < 6000; ++i) {
        const Put put = random_put(tree.store, random);
        EXPECT(put.done());
        datoms.push_back({random() % 20, random() % 3, put.value, random() % 40});
    }
    const ByContent less = tree.store.by_content();
    const auto equal = [&](const Datom &a, const Datom &b) { return tree.store.heap().compare(a, b) == 0; };
    EXPECT(less.order == order && tree.store.reader().by_content().order == order);
    std::vector<Datom> sorted = datoms;
    std::stable_sort(sorted.begin(), sorted.end(), less);
    sorted.erase(std::unique(sorted.begin(), sorted.end(), equal), sorted.end());
    std::vector<Datom> shuffled = sorted;
    std::shuffle(shuffled.begin(), shuffled.end(), std::mt19937_64(4));
    for (std::size_t at = 0; at < shuffled.size(); at += 100) {
        const Span<Datom> batch(shuffled.data() + at, std::min<std::size_t>(100, shuffled.size() - at));
        std::sort(batch.begin(), batch.end(), less);
        EXPECT(tree.store.insert(batch).done());
    }
    const Reader reader = tree.store.reader();
    Listing listing = reader.list(tree.store.root());
    EXPECT(sorted.size() > 2000 && sorted.size() < datoms.size() && std::equal(listing.begin(), listing.end(), sorted.begin(), sorted.end()));
    EXPECT(listing.ended() && reader.check(tree.store.root()).done());
    // Every datom that was made is held, by whichever constant.
    for (const Datom &datom : datoms) EXPECT(reader.held(tree.store.root(), {datom}).done());
}

void long_values() {
    LongTree tree(16, 256);
    const Value text = tree.store.put("an order text").value, same = tree.store.put("an order text").value;
    const Datom one = *Datom::asserted(1, 1, text, 2), twin = *Datom::asserted(1, 1, same, 2);
    EXPECT(text != same && one != twin && tree.store.heap().compare(one, twin) == 0 && !ByContent{tree.store.heap()}(one, twin));
    EXPECT(tree.store.insert({one, twin}).number == Number::OutOfOrder && tree.store.insert({one}).done());
    EXPECT(tree.store.insert({twin}).number == Number::Repeated && tree.store.reader().held(tree.store.root(), {twin}).done());
    const Answer bad = tree.store.insert({d(7), *Datom::asserted(8, 1, Value{text.word + 1}, 2)});
    EXPECT(bad.number == Number::BadConstant && bad.detail == 1 && bad.carries() == Carries::Index);
    // A bound of a long value, and one that names nothing.
    Listing listing = tree.store.reader().list(tree.store.root(), *Datom::retracted(1, 1, same, 0), *Datom::asserted(1, 1, same, 4));
    EXPECT(listing.begin() != listing.end() && listing.answer().done());
    Listing refused = tree.store.reader().list(tree.store.root(), *Datom::retracted(1, 1, Value{same.word + 1}, 0));
    EXPECT(refused.begin() == refused.end() && refused.answer().number == Number::BadBound);
    // A reader with less of the heap than its pages name.
    const Reader cut(tree.bytes, tree.heap, {256, tree.store.page_count(), 8});
    EXPECT(cut.check(tree.store.root()).fault == Fault::Form && cut.held(tree.store.root(), {d(7)}).fault == Fault::Form);
    EXPECT(Reader(tree.bytes, tree.heap, {256, tree.store.page_count(), 264}).check(none).number == Number::BadStore);
    EXPECT(Reader(tree.bytes, tree.heap, {256, tree.store.page_count(), 264}).refusal(0).done());
}

}  // namespace

int main() {
    values();
    getters();
    order();
    batches();
    other_bytes();
    temporaries();
    answers();
    faults();
    damaged_pages();
    sizes();
    trees();
    parts_of_orders();
    bad_orders();
    forms_of_a_batch();
    iterators();
    held();
    put_values();
    records();
    for (const Order each : orders) order_by_content(each);
    long_values();
    return failures != 0;
}
