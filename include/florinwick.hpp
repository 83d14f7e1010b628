// Florinwick for C++17: what florinwick.h offers, with names for the numbers, datoms as values and a listing to loop over.
//
// Header only. It allocates nothing and throws nothing: every byte is lent by the caller, and every answer is looked at.
//
//     florinwick::Store store({bytes, length}, 4096, {scratch, scratch_length});
//     std::vector<florinwick::Datom> fills = ..                 // ascending, at most 128; or a Batch, which allocates nothing
//     florinwick::Answer answer = store.insert(fills);          // Done: root and page count of `store` have moved on
//     florinwick::Listing listing = store.reader().list(store.root(), lower, upper);
//     for (const florinwick::Datom &datom : listing) use(datom);
//     if (!listing.ended()) complain(listing.answer());         // a refusal ends the loop too: ask which it was
//
// Long values, texts of over seven bytes and integers of 2^62 or more, lie on a heap that is lent beside the store:
//     florinwick::Store store({bytes, length}, {heap, heap_length}, {4096}, {scratch, scratch_length});
//     const florinwick::Put text = store.put("an order text");  // of any length: inline where it fits; HeapFull: lend more, and put again
//     if (text) .. *Datom::asserted(7001, 4, text.value, 2) ..
//     const auto read = store.heap().text_of(datom.value);      // nothing if that is no text
// They are compared by content, so a batch of them is sorted by store.by_content().
//
// A store has one order, which is given with its page size and kept in its record: by entity, attribute, value and transaction, or
//     florinwick::Store by_attribute({bytes, length}, 4096, florinwick::Order::Aevt, {scratch, scratch_length});
//     florinwick::Store by_value({bytes, length}, {heap, heap_length}, StoreRecord::of(4096, Order::Avet), {scratch, scratch_length});
// Batches rise in it, listings go by it, and bounds, which are datoms in every order, are compared in it: in these two all of attribute a
// lies from {0, a} to {0, a + 1}, in the second with values from v to below w from {0, a, v} to {0, a, w}. No root says in which order it
// was written: who keeps roots and bytes keeps the order with them.
//
// Repeated says that the tree holds one datom of the batch, the first of them at the index; it does not say that it holds the others.
// `Reader::held` says that.
//
// Damaged and Unsound name a page, and `Answer::fault` which rule it broke:
//     if (answer.fault) complain(answer.detail, name(*answer.fault), text(*answer.fault));
#ifndef FLORINWICK_HPP
#define FLORINWICK_HPP

#include "florinwick.h"

#include <cstddef>
#include <cstdint>
#include <initializer_list>
#include <iterator>
#include <optional>
#include <string_view>
#include <type_traits>
#include <utility>
#if __cplusplus >= 202002L
#include <span>
#endif

namespace florinwick {

// Of this header and florinwick.h, as "0.6.0". The archive is of the same one if both come from one install.
inline constexpr std::string_view version = FLORINWICK_VERSION;

// The sizes that a page may have, in bytes; all pages of a store have one. scratch_need is 0 for any other.
inline constexpr std::uint64_t page_sizes[] = {256, 568, 4096, 8192};

// In which order a store has its datoms: the first letters of entity, attribute, value and transaction_operation. In all of them values are
// compared by content.
enum class Order : std::uint64_t {
    Eavt = FLORINWICK_EAVT,
    Aevt = FLORINWICK_AEVT,
    Avet = FLORINWICK_AVET,
};
inline constexpr Order orders[] = {Order::Eavt, Order::Aevt, Order::Avet};

// Nothing for a number that no order has. A record with such a one is answered BadOrder.
[[nodiscard]] constexpr std::optional<Order> order_of(std::uint64_t number) {
    if (number > FLORINWICK_AVET) return std::nullopt;
    return static_cast<Order>(number);
}

constexpr std::string_view name(Order order) {
    switch (order) {
        case Order::Eavt: return "eavt";
        case Order::Aevt: return "aevt";
        case Order::Avet: return "avet";
    }
    return "unknown";
}

template <class T>
class Span;

namespace detail {

template <class T>
inline constexpr bool is_byte = std::is_same_v<T, std::byte> || std::is_same_v<T, char> || std::is_same_v<T, unsigned char>;

// The same type, or a byte by another name: any object may be seen as unsigned char.
template <class From, class To>
inline constexpr bool is_same_or_byte = std::is_same_v<From, To> || (std::is_same_v<To, std::uint8_t> && is_byte<From>);

// Whether elements of type From may be seen as ones of type To. What may not be changed stays so.
template <class From, class To>
inline constexpr bool seen_as =
    is_same_or_byte<std::remove_const_t<From>, std::remove_const_t<To>> && (std::is_const_v<To> || !std::is_const_v<From>);

template <class Container>
using pointer_of = decltype(std::declval<Container &>().data());

// Anything with data() and size() whose elements may be seen as T.
template <class Container, class T, class = void>
inline constexpr bool has_elements = false;
template <class Container, class T>
inline constexpr bool has_elements<Container, T, std::void_t<pointer_of<Container>, decltype(std::declval<Container &>().size())>> =
    std::is_pointer_v<pointer_of<Container>> && seen_as<std::remove_pointer_t<pointer_of<Container>>, T>;

// Types that own nothing: what they show outlives them.
template <class View>
inline constexpr bool is_view = false;
template <class T>
inline constexpr bool is_view<Span<T>> = true;
template <class Char>
inline constexpr bool is_view<std::basic_string_view<Char>> = true;
#if __cplusplus >= 202002L
template <class T, std::size_t N>
inline constexpr bool is_view<std::span<T, N>> = true;
#endif

// A variable or a view. Anything else that is given by value is gone at the end of the expression, with its elements.
template <class Container>
inline constexpr bool lasts = std::is_lvalue_reference_v<Container> || is_view<std::remove_cv_t<std::remove_reference_t<Container>>>;

template <class T, class From>
constexpr T *pointer_as(From *from) {
    if constexpr (std::is_convertible_v<From *, T *>) {
        return from;
    } else {
        return reinterpret_cast<T *>(from);
    }
}

}  // namespace detail

// A part of memory that somebody else owns. C++17 has no std::span.
template <class T>
class Span {
public:
    constexpr Span() = default;
    constexpr Span(T *data, std::size_t size) : data_(data), size_(size) {}
    // No array of char: a literal has a byte more than it shows.
    template <class Element, std::size_t N,
              std::enable_if_t<detail::seen_as<Element, T> && !std::is_same_v<std::remove_const_t<Element>, char>, int> = 0>
    constexpr Span(Element (&array)[N]) : data_(detail::pointer_as<T>(array)), size_(N) {}
    // Anything with data() and size(), as std::vector and std::array; also a Span of what may be changed as one of what may not, and
    // bytes of type char or std::byte.
    template <class Container, std::enable_if_t<detail::has_elements<Container, T> && detail::lasts<Container>, int> = 0>
    constexpr Span(Container &&container) : data_(detail::pointer_as<T>(container.data())), size_(container.size()) {}
    // A Span of a temporary would outlive its elements. A batch that is given to a call may be one: BatchArgument.
    template <class Container, std::enable_if_t<detail::has_elements<Container, T> && !detail::lasts<Container>, int> = 0>
    Span(Container &&) = delete;

    constexpr T *data() const { return data_; }
    constexpr std::size_t size() const { return size_; }
    constexpr bool empty() const { return size_ == 0; }
    constexpr T *begin() const { return data_; }
    constexpr T *end() const { return data_ + size_; }
    constexpr T &operator[](std::size_t at) const { return data_[at]; }
    constexpr Span first(std::size_t count) const { return {data_, count}; }
    constexpr Span from(std::size_t at) const { return {data_ + at, size_ - at}; }

private:
    T *data_ = nullptr;
    std::size_t size_ = 0;
};

using ByteView = Span<const std::uint8_t>;
using ByteArea = Span<std::uint8_t>;

namespace detail {

// A slice of the library is never at null, also when it is empty.
template <class T>
T *lent(Span<T> slice) {
    static std::remove_const_t<T> nothing{};
    return slice.data() != nullptr ? slice.data() : &nothing;
}

// Below 0, 0 or above 0, as `a` is below, equal to or above `b`.
constexpr int sign_of(std::uint64_t a, std::uint64_t b) { return a < b ? -1 : a > b ? 1 : 0; }

}  // namespace detail

inline std::uint64_t get_word(const std::uint8_t *at) {
    std::uint64_t word = 0;
    for (int i = 7; i >= 0; --i) word = word << 8 | at[i];
    return word;
}

inline void put_word(std::uint8_t *at, std::uint64_t word) {
    for (int i = 0; i < 8; ++i) at[i] = static_cast<std::uint8_t>(word >> (8 * i));
}

// The page id that is none.
constexpr std::uint64_t none = FLORINWICK_NONE;

// The bytes of a string value: of a short one by themselves, of a long one where they lie on the heap.
class Text {
public:
    constexpr std::size_t size() const { return size_; }
    // For as long as this Text is there, and the heap: of one that is kept, as `as_text()->view()` is gone at the end of its expression.
    constexpr std::string_view view() const & { return {there_ != nullptr ? there_ : bytes_, size_}; }
    std::string_view view() const && = delete;
    constexpr operator std::string_view() const & { return view(); }
    operator std::string_view() const && = delete;

    friend constexpr bool operator==(const Text &a, const Text &b) { return a.view() == b.view(); }
    friend constexpr bool operator!=(const Text &a, const Text &b) { return a.view() != b.view(); }
    friend constexpr bool operator==(const Text &a, std::string_view b) { return a.view() == b; }
    friend constexpr bool operator!=(const Text &a, std::string_view b) { return a.view() != b; }

private:
    friend struct Value;
    friend class HeapView;
    constexpr Text() = default;
    Text(const char *there, std::size_t size) : there_(there), size_(size) {}
    const char *there_ = nullptr;
    char bytes_[7] = {};
    std::size_t size_ = 0;
};

// The value word of a datom. One that names a constant says only where it lies: HeapView reads it.
struct Value {
    std::uint64_t word = 0;

    static constexpr std::uint64_t integer_end = std::uint64_t{1} << 62;

    // Nothing for an integer of 2^62 or more: `put` takes any.
    [[nodiscard]] static constexpr std::optional<Value> integer(std::uint64_t number) {
        if (number >= integer_end) return std::nullopt;
        return Value{number};
    }
    // Nothing for more than seven bytes: `put` takes any.
    [[nodiscard]] static constexpr std::optional<Value> text(std::string_view bytes) {
        if (bytes.size() > 7) return std::nullopt;
        std::uint64_t word = std::uint64_t{2} << 62 | std::uint64_t{bytes.size()} << 56;
        for (std::size_t i = 0; i < bytes.size(); ++i) {
            word |= std::uint64_t{static_cast<unsigned char>(bytes[i])} << (8 * i);
        }
        return Value{word};
    }
    // For bounds alone: no datom with it is stored.
    static constexpr Value max() { return Value{FLORINWICK_MAX}; }

    // Of the word itself: an integer below 2^62.
    constexpr bool is_integer() const { return word < integer_end; }
    constexpr bool is_max() const { return word == FLORINWICK_MAX; }
    // A constant on the heap, if there is one at the offset.
    constexpr bool names_integer() const { return word >> 62 == 1; }
    constexpr bool names_text() const { return word >> 62 == 3 && !is_max(); }
    constexpr bool names_constant() const { return names_integer() || names_text(); }
    constexpr std::uint64_t offset() const { return word % integer_end; }
    // A string of at most seven bytes whose unused bytes are zero.
    constexpr bool is_text() const {
        if (word >> 62 != 2 || text_size() > 7) return false;
        return text_size() == 7 || (word & 0x00ffffffffffffff) >> (8 * text_size()) == 0;
    }
    constexpr std::size_t text_size() const { return word >> 56 & 0x3f; }
    constexpr char text_byte(std::size_t at) const { return static_cast<char>(word >> (8 * at) & 0xff); }

    // Nothing for another kind of value, nor for one that names a constant.
    [[nodiscard]] constexpr std::optional<std::uint64_t> as_integer() const {
        if (!is_integer()) return std::nullopt;
        return word;
    }
    [[nodiscard]] constexpr std::optional<Text> as_text() const {
        if (!is_text()) return std::nullopt;
        Text text;
        text.size_ = text_size();
        for (std::size_t i = 0; i < text.size_; ++i) text.bytes_[i] = text_byte(i);
        return text;
    }

    // Of the words. Two constants of equal content are not equal so: HeapView::compare.
    friend constexpr bool operator==(Value a, Value b) { return a.word == b.word; }
    friend constexpr bool operator!=(Value a, Value b) { return a.word != b.word; }
    // As every order has values that name no constant: integers, then strings by their bytes, a prefix first, then max. A word that is no
    // value, which no tree and no bound may have, comes behind the strings; so does one that names a constant: ByContent has its place.
    friend constexpr bool operator<(Value a, Value b) {
        const int of_a = a.kind(), of_b = b.kind();
        return of_a != of_b ? of_a < of_b : a.key() < b.key();
    }
    friend constexpr bool operator>(Value a, Value b) { return b < a; }
    friend constexpr bool operator<=(Value a, Value b) { return !(b < a); }
    friend constexpr bool operator>=(Value a, Value b) { return !(a < b); }

private:
    constexpr int kind() const { return is_integer() ? 0 : is_text() ? 1 : 2; }
    // A number by which values of one kind compare; of a string its bytes, the first one highest, and behind them its length, which tells
    // a string from one with zero bytes more.
    constexpr std::uint64_t key() const {
        if (!is_text()) return word;
        std::uint64_t key = 0;
        for (std::size_t i = 0; i < 7; ++i) key = key << 8 | (word >> (8 * i) & 0xff);
        return key << 8 | text_size();
    }
};

// A fact with the transaction that asserted or retracted it.
struct Datom {
    std::uint64_t entity = 0;
    std::uint64_t attribute = 0;
    Value value;
    std::uint64_t transaction_operation = 0;

    static constexpr std::size_t size = FLORINWICK_DATOM_BYTES;

    // Nothing for an odd transaction: its lowest bit is where assert and retract are told apart.
    [[nodiscard]] static constexpr std::optional<Datom> asserted(std::uint64_t entity, std::uint64_t attribute, Value value,
                                                                 std::uint64_t transaction) {
        if (transaction & 1) return std::nullopt;
        return Datom{entity, attribute, value, transaction | 1};
    }
    [[nodiscard]] static constexpr std::optional<Datom> retracted(std::uint64_t entity, std::uint64_t attribute, Value value,
                                                                  std::uint64_t transaction) {
        if (transaction & 1) return std::nullopt;
        return Datom{entity, attribute, value, transaction};
    }
    // Bounds with nothing below and nothing above them, in every order.
    static constexpr Datom min() { return {}; }
    static constexpr Datom max() { return {FLORINWICK_MAX, FLORINWICK_MAX, Value::max(), FLORINWICK_MAX}; }

    constexpr std::uint64_t transaction() const { return transaction_operation & ~std::uint64_t{1}; }
    constexpr bool is_assert() const { return transaction_operation & 1; }

    static Datom read(const std::uint8_t *at) { return {get_word(at), get_word(at + 8), Value{get_word(at + 16)}, get_word(at + 24)}; }
    void write(std::uint8_t *at) const {
        put_word(at, entity);
        put_word(at + 8, attribute);
        put_word(at + 16, value.word);
        put_word(at + 24, transaction_operation);
    }
    friend constexpr bool operator==(const Datom &a, const Datom &b) {
        return a.entity == b.entity && a.attribute == b.attribute && a.value == b.value &&
               a.transaction_operation == b.transaction_operation;
    }
    friend constexpr bool operator!=(const Datom &a, const Datom &b) { return !(a == b); }
    // The order Eavt, where no value names a constant: else ByContent. InOrder has the other two.
    friend constexpr bool operator<(const Datom &a, const Datom &b) { return compare(a, b, Order::Eavt, compare_words) < 0; }
    friend constexpr bool operator>(const Datom &a, const Datom &b) { return b < a; }
    friend constexpr bool operator<=(const Datom &a, const Datom &b) { return !(b < a); }
    friend constexpr bool operator>=(const Datom &a, const Datom &b) { return !(a < b); }

    // Below 0 if `a` comes before `b` in the order, 0 if they are equal in it, else above 0. Their values are compared so by
    // `compare_values`, and only where that decides.
    template <class CompareValues>
    static constexpr int compare(const Datom &a, const Datom &b, Order order, const CompareValues &compare_values) {
        const int entities = detail::sign_of(a.entity, b.entity), attributes = detail::sign_of(a.attribute, b.attribute);
        const int first = order == Order::Eavt ? entities : attributes, other = order == Order::Eavt ? attributes : entities;
        if (first != 0) return first;
        if (order != Order::Avet && other != 0) return other;
        if (const int values = compare_values(a.value, b.value)) return values;
        return other != 0 ? other : detail::sign_of(a.transaction_operation, b.transaction_operation);
    }
    // Of values that name no constant.
    static constexpr int compare_words(Value a, Value b) { return a < b ? -1 : b < a ? 1 : 0; }
};

// The order of a store whose values name no constants, for std::sort and the like: else ByContent.
struct InOrder {
    Order order = Order::Eavt;

    constexpr bool operator()(const Datom &a, const Datom &b) const { return Datom::compare(a, b, order, Datom::compare_words) < 0; }
};

// The record of a datom in florinwick.h, for callers that have it.
using Record = florinwick_datom;

// What a value is, read against a heap.
enum class Kind {
    Integer,
    Text,
    Max,
    BadConstant,   // it names a place where no constant is that it could name
    Malformed,     // a word that is no value, whatever the heap holds
};

// The part of a heap that is in use, to be read: what values name there. It looks at the lent bytes, and is good for as long as they are.
class HeapView {
public:
    // No heap: no value names anything.
    constexpr HeapView() = default;
    // The first `length` of the lent bytes. A length that passes them is one of no heap.
    constexpr HeapView(ByteView bytes, std::uint64_t length)
        : bytes_(length <= bytes.size() ? bytes.first(static_cast<std::size_t>(length)) : ByteView()) {}

    constexpr std::uint64_t length() const { return bytes_.size(); }

    // By the rules of the library: what is Integer or Text here is stored, what is BadConstant is answered BadConstant.
    Kind kind_of(Value value) const {
        if (value.is_integer()) return Kind::Integer;
        if (value.is_text()) return Kind::Text;
        if (value.is_max()) return Kind::Max;
        if (!value.names_constant()) return Kind::Malformed;
        const bool is_there = value.names_integer() ? has_integer(value.offset()) : has_text(value.offset());
        return !is_there ? Kind::BadConstant : value.names_integer() ? Kind::Integer : Kind::Text;
    }
    // Nothing for another kind: kind_of says which.
    [[nodiscard]] std::optional<std::uint64_t> integer_of(Value value) const {
        if (kind_of(value) != Kind::Integer) return std::nullopt;
        return value.is_integer() ? value.word : word_at(value.offset());
    }
    [[nodiscard]] std::optional<Text> text_of(Value value) const {
        if (kind_of(value) != Kind::Text) return std::nullopt;
        if (value.is_text()) return value.as_text();
        const std::uint8_t *bytes = bytes_.data() + value.offset() + 8;
        return Text(reinterpret_cast<const char *>(bytes), static_cast<std::size_t>(word_at(value.offset())));
    }
    // The constant's bytes as they lie on the heap, with length and padding; empty for a value that names none.
    ByteView constant_of(Value value) const {
        if (!value.names_constant() || kind_of(value) == Kind::BadConstant) return {};
        const std::uint64_t size = value.names_integer() ? 8 : 8 + padded(word_at(value.offset()));
        return {bytes_.data() + value.offset(), static_cast<std::size_t>(size)};
    }

    // Below 0 if `a` comes before `b` by content, 0 if both have the same, else above 0. What is neither integer nor text comes behind the
    // texts, by its word.
    int compare(Value a, Value b) const {
        const int of_a = rank_of(a), of_b = rank_of(b);
        if (of_a != of_b) return of_a < of_b ? -1 : 1;
        if (of_a == 0) return detail::sign_of(*integer_of(a), *integer_of(b));
        if (of_a == 2) return detail::sign_of(a.word, b.word);
        const Text text_a = *text_of(a), text_b = *text_of(b);
        return text_a.view().compare(text_b.view());
    }
    // In the order of a store, so with its datoms. Which are equal is the same in every order.
    int compare(const Datom &a, const Datom &b, Order order = Order::Eavt) const {
        return Datom::compare(a, b, order, [this](Value of_a, Value of_b) { return compare(of_a, of_b); });
    }

private:
    static constexpr std::uint64_t padded(std::uint64_t size) { return (size + 7) / 8 * 8; }
    int rank_of(Value value) const {
        const Kind kind = kind_of(value);
        return kind == Kind::Integer ? 0 : kind == Kind::Text ? 1 : 2;
    }
    std::uint64_t word_at(std::uint64_t offset) const { return get_word(bytes_.data() + offset); }
    bool has_word(std::uint64_t offset) const { return offset % 8 == 0 && length() >= 8 && offset <= length() - 8; }
    bool has_integer(std::uint64_t offset) const { return has_word(offset) && word_at(offset) >= Value::integer_end; }
    bool has_text(std::uint64_t offset) const {
        if (!has_word(offset)) return false;
        const std::uint64_t size = word_at(offset), left = length() - offset - 8;
        if (size < 8 || size > left || padded(size) > left) return false;
        for (std::uint64_t i = size; i < padded(size); ++i) {
            if (bytes_[static_cast<std::size_t>(offset + 8 + i)] != 0) return false;
        }
        return true;
    }

    ByteView bytes_;
};

// The order of a store where values may name constants, for std::sort and the like. Equal is who comes before the other neither way.
struct ByContent {
    HeapView heap;
    Order order = Order::Eavt;

    bool operator()(const Datom &a, const Datom &b) const { return heap.compare(a, b, order) < 0; }
    bool operator()(Value a, Value b) const { return heap.compare(a, b) < 0; }
};

// The store's record: what a caller keeps beside the bytes and the root. `record_after` makes the next one.
struct StoreRecord {
    std::uint64_t page_size = 0;
    std::uint64_t page_count = 0;
    std::uint64_t heap_length = 0;   // bytes of the heap in use
    Order order = Order::Eavt;       // of its datoms, from its first batch on

    // That of a new store.
    static constexpr StoreRecord of(std::uint64_t page_size, Order order = Order::Eavt) { return {page_size, 0, 0, order}; }

    static constexpr std::size_t size = FLORINWICK_RECORD_BYTES;
};

// The bytes of a batch, 4096 of them, in the value itself. A caller that has the bytes already needs none.
class Batch {
public:
    // False if it has 128 datoms already: send it, clear it, and add the datom then.
    [[nodiscard]] bool add(const Datom &datom) {
        if (count_ == FLORINWICK_BATCH_MAX) return false;
        datom.write(bytes_ + count_ * Datom::size);
        ++count_;
        return true;
    }
    void clear() { count_ = 0; }
    std::size_t size() const { return count_; }
    Datom operator[](std::size_t at) const { return Datom::read(bytes_ + at * Datom::size); }
    operator ByteView() const & { return {bytes_, count_ * Datom::size}; }
    operator ByteView() const && = delete;

private:
    std::uint8_t bytes_[FLORINWICK_BATCH_MAX * Datom::size];
    std::size_t count_ = 0;
};

namespace detail {

// A word as the library wants it lies in memory so already. Where that is not known they are laid anew, which is right on any machine.
#if defined(__BYTE_ORDER__) && __BYTE_ORDER__ == __ORDER_LITTLE_ENDIAN__
inline constexpr bool lies_as_bytes = true;
#else
inline constexpr bool lies_as_bytes = false;
#endif

// Four words and no gaps, in the library's order; so is a Record.
static_assert(sizeof(Datom) == Datom::size && std::is_standard_layout_v<Datom> && std::is_trivially_copyable_v<Datom>);
static_assert(offsetof(Datom, attribute) == 8 && offsetof(Datom, value) == 16 && offsetof(Datom, transaction_operation) == 24);
static_assert(sizeof(Record) == Datom::size && offsetof(Record, transaction_operation) == 24 && alignof(Record) == alignof(Datom));

static_assert(sizeof(florinwick_record) == StoreRecord::size);

// The record as the calls take it.
class LaidRecord {
public:
    explicit LaidRecord(const StoreRecord &record) {
        put_word(bytes_, record.page_size);
        put_word(bytes_ + 8, record.page_count);
        put_word(bytes_ + 16, record.heap_length);
        put_word(bytes_ + 24, static_cast<std::uint64_t>(record.order));
    }
    const std::uint8_t *data() const { return bytes_; }
    static constexpr std::size_t size() { return StoreRecord::size; }

private:
    std::uint8_t bytes_[StoreRecord::size];
};

inline Datom datom_of(const Datom &datom) { return datom; }
inline Datom datom_of(const Record &record) { return {record.entity, record.attribute, Value{record.value}, record.transaction_operation}; }

// The bytes of datoms or records where they lie: any object may be read as unsigned char.
template <bool in_place>
class Laid {
public:
    template <class Element>
    ByteView of(Span<const Element> elements) {
        return {reinterpret_cast<const std::uint8_t *>(elements.data()), elements.size() * sizeof(Element)};
    }
};

// The same, laid anew. The library takes 128, and refuses any more as it refuses 129: the others need not be laid to be refused.
template <>
class Laid<false> {
public:
    template <class Element>
    ByteView of(Span<const Element> elements) {
        std::size_t count = 0;
        for (; count < elements.size() && count <= FLORINWICK_BATCH_MAX; ++count) {
            datom_of(elements[count]).write(bytes_ + count * Datom::size);
        }
        return {bytes_, count * Datom::size};
    }

private:
    std::uint8_t bytes_[(FLORINWICK_BATCH_MAX + 1) * Datom::size];
};

}  // namespace detail

// What a call takes as a batch: a Batch, datoms, records or bytes, wherever they lie. It is for the time of that call, so unlike a Span it
// may be made of a temporary. How many there are is looked at by the library alone: TooMany.
class BatchArgument {
public:
    BatchArgument() = default;
    BatchArgument(const Batch &batch) : bytes_(batch) {}
    BatchArgument(ByteView bytes) : bytes_(bytes) {}
    BatchArgument(Span<const Datom> datoms) : bytes_(laid_.of(datoms)) {}
    BatchArgument(Span<const Record> records) : bytes_(laid_.of(records)), records_(records) {}
    BatchArgument(std::initializer_list<Datom> datoms) : BatchArgument(Span<const Datom>(datoms.begin(), datoms.size())) {}
    template <class Element>
    BatchArgument(const Element *elements, std::size_t count) : BatchArgument(Span<const Element>(elements, count)) {}
    // No array of char, as for a Span.
    template <class Element, std::size_t N, std::enable_if_t<!std::is_same_v<Element, char>, int> = 0>
    BatchArgument(const Element (&array)[N]) : BatchArgument(Span<const Element>(array)) {}
    template <class Container, std::enable_if_t<detail::has_elements<Container, const std::uint8_t>, int> = 0>
    BatchArgument(Container &&container) : BatchArgument(ByteView(container)) {}
    template <class Container, std::enable_if_t<detail::has_elements<Container, const Datom>, int> = 0>
    BatchArgument(Container &&container) : BatchArgument(Span<const Datom>(container)) {}
    template <class Container, std::enable_if_t<detail::has_elements<Container, const Record>, int> = 0>
    BatchArgument(Container &&container) : BatchArgument(Span<const Record>(container)) {}

    // A copy would look into the bytes of the first.
    BatchArgument(const BatchArgument &) = delete;
    BatchArgument &operator=(const BatchArgument &) = delete;

    ByteView bytes() const { return bytes_; }
    // Empty unless it was made of records. For who calls florinwick_insert_records: the calls of this header take the bytes.
    Span<const Record> records() const { return records_; }

private:
    detail::Laid<detail::lies_as_bytes> laid_;
    ByteView bytes_;
    Span<const Record> records_;
};

enum class Number : std::uint64_t {
    Done = FLORINWICK_DONE,
    BadStore = FLORINWICK_BAD_STORE,
    TooMany = FLORINWICK_TOO_MANY,
    BadDatom = FLORINWICK_BAD_DATOM,
    OutOfOrder = FLORINWICK_OUT_OF_ORDER,
    NoPage = FLORINWICK_NO_PAGE,
    Repeated = FLORINWICK_REPEATED,
    Damaged = FLORINWICK_DAMAGED,
    TooTall = FLORINWICK_TOO_TALL,
    NoRoom = FLORINWICK_NO_ROOM,
    BadBound = FLORINWICK_BAD_BOUND,
    BadConstant = FLORINWICK_BAD_CONSTANT,
    HeapFull = FLORINWICK_HEAP_FULL,
    BadOrder = FLORINWICK_BAD_ORDER,
    NotHeld = FLORINWICK_NOT_HELD,
    Ended = FLORINWICK_ENDED,
    Unsound = FLORINWICK_UNSOUND,
};

constexpr const char *name_of(Number number) {
    switch (number) {
        case Number::Done: return "Done";
        case Number::BadStore: return "BadStore";
        case Number::TooMany: return "TooMany";
        case Number::BadDatom: return "BadDatom";
        case Number::OutOfOrder: return "OutOfOrder";
        case Number::NoPage: return "NoPage";
        case Number::Repeated: return "Repeated";
        case Number::Damaged: return "Damaged";
        case Number::TooTall: return "TooTall";
        case Number::NoRoom: return "NoRoom";
        case Number::BadBound: return "BadBound";
        case Number::BadConstant: return "BadConstant";
        case Number::HeapFull: return "HeapFull";
        case Number::BadOrder: return "BadOrder";
        case Number::NotHeld: return "NotHeld";
        case Number::Ended: return "Ended";
        case Number::Unsound: return "Unsound";
    }
    return "unknown";
}

// What word 3 of an answer with this number is.
enum class Carries { Nothing, Index, Page };

constexpr Carries carried_by(Number number) {
    switch (number) {
        case Number::BadDatom:
        case Number::OutOfOrder:
        case Number::Repeated:
        case Number::BadConstant:
        case Number::NotHeld: return Carries::Index;
        case Number::Damaged:
        case Number::Unsound: return Carries::Page;
        default: return Carries::Nothing;
    }
}

// Which rule the page of a Damaged or an Unsound broke.
enum class Fault : std::uint64_t {
    Level = FLORINWICK_FAULT_LEVEL,
    Count = FLORINWICK_FAULT_COUNT,
    Form = FLORINWICK_FAULT_FORM,
    Order = FLORINWICK_FAULT_ORDER,
    LeafChild = FLORINWICK_FAULT_LEAF_CHILD,
    LastChild = FLORINWICK_FAULT_LAST_CHILD,
    ChildId = FLORINWICK_FAULT_CHILD_ID,
    Missing = FLORINWICK_FAULT_MISSING,
    WrongLevel = FLORINWICK_FAULT_WRONG_LEVEL,
    EqualDatoms = FLORINWICK_FAULT_EQUAL_DATOMS,
    OutOfBounds = FLORINWICK_FAULT_OUT_OF_BOUNDS,
    PastCount = FLORINWICK_FAULT_PAST_COUNT,
    TooHigh = FLORINWICK_FAULT_TOO_HIGH,
    NothingLeft = FLORINWICK_FAULT_NOTHING_LEFT,
};

// Nothing for a number that this header has no name for: 0, or one of an archive that is newer than it.
[[nodiscard]] constexpr std::optional<Fault> fault_of(std::uint64_t number) {
    if (number < FLORINWICK_FAULT_LEVEL || number > FLORINWICK_FAULT_NOTHING_LEFT) return std::nullopt;
    return static_cast<Fault>(number);
}

constexpr std::string_view name(Fault fault) {
    switch (fault) {
        case Fault::Level: return "Level";
        case Fault::Count: return "Count";
        case Fault::Form: return "Form";
        case Fault::Order: return "Order";
        case Fault::LeafChild: return "LeafChild";
        case Fault::LastChild: return "LastChild";
        case Fault::ChildId: return "ChildId";
        case Fault::Missing: return "Missing";
        case Fault::WrongLevel: return "WrongLevel";
        case Fault::EqualDatoms: return "EqualDatoms";
        case Fault::OutOfBounds: return "OutOfBounds";
        case Fault::PastCount: return "PastCount";
        case Fault::TooHigh: return "TooHigh";
        case Fault::NothingLeft: return "NothingLeft";
    }
    return "unknown";
}

// What the name means. "It" is the page.
constexpr std::string_view text(Fault fault) {
    switch (fault) {
        case Fault::Level: return "its level is over 7";
        case Fault::Count: return "it counts more datoms than a page of its size holds";
        case Fault::Form: return "a datom in it is malformed, has the value max, or names no constant";
        case Fault::Order: return "its datoms do not rise";
        case Fault::LeafChild: return "its level is 0, and it has a child";
        case Fault::LastChild: return "its level is above 0, and it has no last child";
        case Fault::ChildId: return "the number of one of its children is not below its own";
        case Fault::Missing: return "the store has no such page";
        case Fault::WrongLevel: return "its level is not the one that its place in the tree asks for";
        case Fault::EqualDatoms: return "one of its datoms stands in another page of the tree too";
        case Fault::OutOfBounds: return "a datom in it is not between the bounds that the pages above it set";
        case Fault::PastCount: return "the cursor's index is past its count";
        case Fault::TooHigh: return "the cursor's height is over 8";
        case Fault::NothingLeft: return "the cursor has not ended, and no datom is left under it";
    }
    return "unknown";
}

// The four words of an answer. It must be looked at: a refused batch is not in.
struct [[nodiscard]] Answer {
    Number number = Number::Done;
    std::uint64_t root = none;           // the given one if refused
    std::uint64_t pages = 0;             // written; 0 if refused
    std::uint64_t detail = 0;            // index or page
    std::optional<Fault> fault = {};     // of Damaged and Unsound alone; absent too where fault_of has no name for it

    // Word 2 is the fault's number where word 0 is Damaged or Unsound. florinwick_insert, which names none, has 0 there.
    static Answer read(const std::uint8_t *words) {
        const Number number = static_cast<Number>(get_word(words));
        const std::uint64_t root = get_word(words + 8), second = get_word(words + 16), detail = get_word(words + 24);
        if (number == Number::Damaged || number == Number::Unsound) return {number, root, 0, detail, fault_of(second)};
        return {number, root, second, detail};
    }
    constexpr bool done() const { return number == Number::Done; }
    constexpr explicit operator bool() const { return done(); }
    constexpr const char *name() const { return name_of(number); }
    constexpr Carries carries() const { return carried_by(number); }
};

// What became of a value that was put. It must be looked at: a refused one has no value.
struct [[nodiscard]] Put {
    Number number = Number::Done;
    Value value = {};            // 0 if refused
    std::uint64_t bytes = 0;     // that the heap has grown by; 0 if the value has an inline form, or was refused

    static Put read(const std::uint8_t *words) {
        return {static_cast<Number>(get_word(words)), Value{get_word(words + 8)}, get_word(words + 16)};
    }
    constexpr bool done() const { return number == Number::Done; }
    constexpr explicit operator bool() const { return done(); }
    constexpr const char *name() const { return name_of(number); }
};

// The record that the next call is handed: the one place where it is made. A batch that is Done brings more pages, a constant a longer heap,
// and whatever is refused nothing.
[[nodiscard]] constexpr StoreRecord record_after(const StoreRecord &record, const Answer &answer) {
    return {record.page_size, record.page_count + (answer.done() ? answer.pages : 0), record.heap_length, record.order};
}
[[nodiscard]] constexpr StoreRecord record_after(const StoreRecord &record, const Put &put) {
    return {record.page_size, record.page_count, record.heap_length + (put.done() ? put.bytes : 0), record.order};
}

// A text of any length as a value: inline where it fits, else appended to the lent heap, and the record has moved on. It does not look for
// equal content. Refused are BadStore, a heap length over the heap or no multiple of 8, and HeapFull; nothing is then written.
inline Put put(ByteArea heap, StoreRecord &record, std::string_view text) {
    if (const auto value = Value::text(text)) return {Number::Done, *value, 0};
    std::uint8_t words[FLORINWICK_ANSWER_BYTES];
    const ByteView bytes(text);
    florinwick_append_bytes(detail::lent(heap), heap.size(), record.heap_length, bytes.data(), bytes.size(), words, sizeof words);
    const Put put = Put::read(words);
    record = record_after(record, put);
    return put;
}

// An integer of any size, in the same way.
inline Put put(ByteArea heap, StoreRecord &record, std::uint64_t number) {
    if (const auto value = Value::integer(number)) return {Number::Done, *value, 0};
    std::uint8_t words[FLORINWICK_ANSWER_BYTES];
    florinwick_append_u64(detail::lent(heap), heap.size(), record.heap_length, number, words, sizeof words);
    const Put put = Put::read(words);
    record = record_after(record, put);
    return put;
}

// A listing between two bounds, for one pass. It may be copied: the copy goes on from the same place. It reads the bytes of its Reader, so
// it is good for as long as that is.
class Listing {
public:
    // A standard input iterator. An algorithm that comes to the end cannot know why: ask ended() after it, as after a loop.
    class Iterator {
    public:
        using iterator_category = std::input_iterator_tag;
        using value_type = Datom;
        using difference_type = std::ptrdiff_t;
        using pointer = const Datom *;
        using reference = const Datom &;

        // The end.
        Iterator() = default;

        reference operator*() const { return listing_->datom_; }
        pointer operator->() const { return &listing_->datom_; }
        Iterator &operator++() {
            listing_->step();
            return *this;
        }
        // What `*i++` needs: the datom that was there, since the listing has gone on.
        class Passed {
        public:
            const Datom &operator*() const { return datom_; }

        private:
            friend class Iterator;
            explicit Passed(const Datom &datom) : datom_(datom) {}
            Datom datom_;
        };
        Passed operator++(int) {
            const Passed passed(**this);
            ++*this;
            return passed;
        }
        // Two that have no datom at hand are both at the end; else they are equal if they go through the same listing.
        friend bool operator==(const Iterator &a, const Iterator &b) {
            return a.has_datom() == b.has_datom() && (!a.has_datom() || a.listing_ == b.listing_);
        }
        friend bool operator!=(const Iterator &a, const Iterator &b) { return !(a == b); }

    private:
        friend class Listing;
        explicit Iterator(Listing *listing) : listing_(listing) {}
        // Not at the end, and not once the listing has ended or was refused.
        bool has_datom() const { return listing_ != nullptr && listing_->answer_.done(); }
        Listing *listing_ = nullptr;
    };

    // Reads the first datom; every ++ reads the next one.
    Iterator begin() {
        if (answer_.done()) step();
        return Iterator(this);
    }
    Iterator end() const { return {}; }

    // After the loop: true if every datom was listed, false if a refusal broke it off.
    bool ended() const { return answer_.number == Number::Ended; }
    // Of the start, or of the last step.
    const Answer &answer() const { return answer_; }

private:
    friend class Reader;
    Listing(ByteView store, ByteView heap, const StoreRecord &record) : store_(store), heap_(heap), record_(record) {}

    void start(std::uint64_t root, const Datom &lower, const Datom &upper) {
        std::uint8_t bounds[2 * Datom::size];
        lower.write(bounds);
        upper.write(bounds + Datom::size);
        std::uint8_t words[FLORINWICK_ANSWER_BYTES];
        florinwick_list_start(detail::lent(store_), store_.size(), detail::lent(heap_), heap_.size(), record_.data(), record_.size(), root,
                              bounds, Datom::size, bounds + Datom::size, Datom::size, cursor_, sizeof cursor_, words, sizeof words);
        answer_ = Answer::read(words);
    }

    void step() {
        std::uint8_t datom[Datom::size];
        std::uint8_t words[FLORINWICK_ANSWER_BYTES];
        florinwick_list_step(detail::lent(store_), store_.size(), detail::lent(heap_), heap_.size(), record_.data(), record_.size(), cursor_,
                             sizeof cursor_, datom, sizeof datom, words, sizeof words);
        answer_ = Answer::read(words);
        if (answer_.done()) datom_ = Datom::read(datom);
    }

    ByteView store_, heap_;
    detail::LaidRecord record_;
    std::uint8_t cursor_[FLORINWICK_CURSOR_BYTES] = {};
    Datom datom_;
    Answer answer_;
};

// The pages and constants in use of a store, to be read at any root. They are only ever appended, so it goes on seeing what was there when it
// was made, for as long as the lent bytes stay where they are. Who moves them, to lend more, makes new readers and listings: those made
// before look at where the bytes were. It is a few words; ask Store::reader() for one where it is needed rather than keep it.
class Reader {
public:
    Reader(ByteView store, ByteView heap, const StoreRecord &record) : store_(store), heap_(heap), record_(record) {}
    // Of a store without long values.
    Reader(ByteView store, std::uint64_t page_size, std::uint64_t page_count, Order order = Order::Eavt)
        : Reader(store, ByteView(), {page_size, page_count, 0, order}) {}

    const StoreRecord &record() const { return record_; }
    std::uint64_t page_size() const { return record_.page_size; }
    std::uint64_t page_count() const { return record_.page_count; }
    Order order() const { return record_.order; }
    // To read the values that it lists.
    HeapView heap() const { return {heap_, record_.heap_length}; }
    // As it lists: what sorts a batch to be asked for.
    ByContent by_content() const { return {heap(), order()}; }

    // Why a page cannot be fetched.
    Answer refusal(std::uint64_t page) const {
        std::uint8_t words[FLORINWICK_ANSWER_BYTES];
        const detail::LaidRecord record(record_);
        florinwick_fetch(detail::lent(store_), store_.size(), record.data(), record.size(), page, words, sizeof words);
        return Answer::read(words);
    }
    // That very part of the store; empty if refused.
    ByteView fetch(std::uint64_t page) const {
        if (!refusal(page)) return {};
        return {store_.data() + page * page_size(), static_cast<std::size_t>(page_size())};
    }
    // Done if the tree is sound.
    Answer check(std::uint64_t root) const {
        std::uint8_t words[FLORINWICK_ANSWER_BYTES];
        const detail::LaidRecord record(record_);
        florinwick_check(detail::lent(store_), store_.size(), detail::lent(heap_), heap_.size(), record.data(), record.size(), root, words,
                         sizeof words);
        return Answer::read(words);
    }
    // Done if the tree holds every datom of an ascending batch; else NotHeld with the index of the first that it does not hold.
    Answer held(std::uint64_t root, const BatchArgument &batch) const {
        std::uint8_t words[FLORINWICK_ANSWER_BYTES];
        const ByteView bytes = batch.bytes();
        const detail::LaidRecord record(record_);
        florinwick_held(detail::lent(store_), store_.size(), detail::lent(heap_), heap_.size(), record.data(), record.size(), root,
                        detail::lent(bytes), bytes.size(), words, sizeof words);
        return Answer::read(words);
    }
    // From the first datom not below `lower` up to the last below `upper`, all in the store's order. A refused start is seen after the loop,
    // as a refused step is. A long value has to be put before it can be a bound.
    Listing list(std::uint64_t root, const Datom &lower = Datom::min(), const Datom &upper = Datom::max()) const {
        Listing listing(store_, heap_, record_);
        listing.start(root, lower, upper);
        return listing;
    }

private:
    ByteView store_, heap_;
    StoreRecord record_;
};

// A store that is written to: the lent bytes of pages and heap, and the record and the root, which move on with every batch that is Done.
class Store {
public:
    // Scratch is at least scratch_need(page_size) bytes. The record of a new store is {page_size}, or StoreRecord::of(page_size, order).
    Store(ByteArea bytes, ByteArea heap, const StoreRecord &record, ByteArea scratch, std::uint64_t root = none)
        : bytes_(bytes), heap_(heap), scratch_(scratch), record_(record), root_(root) {}
    // One without long values.
    Store(ByteArea bytes, std::uint64_t page_size, Order order, ByteArea scratch, std::uint64_t page_count = 0, std::uint64_t root = none)
        : Store(bytes, ByteArea(), {page_size, page_count, 0, order}, scratch, root) {}
    Store(ByteArea bytes, std::uint64_t page_size, ByteArea scratch, std::uint64_t page_count = 0, std::uint64_t root = none)
        : Store(bytes, page_size, Order::Eavt, scratch, page_count, root) {}

    static std::uint64_t scratch_need(std::uint64_t page_size) { return florinwick_scratch_need(page_size); }

    const StoreRecord &record() const { return record_; }
    std::uint64_t page_size() const { return record_.page_size; }
    std::uint64_t page_count() const { return record_.page_count; }
    std::uint64_t root() const { return root_; }
    Order order() const { return record_.order; }
    HeapView heap() const { return {heap_, record_.heap_length}; }
    // What sorts a batch for this store, with the constants that have been put so far.
    ByContent by_content() const { return {heap(), order()}; }
    Reader reader() const { return Reader(bytes_, heap_, record_); }

    // A text of any length, or an integer of any size, as a value for this store's datoms and bounds: `put` above.
    Put put(std::string_view text) { return florinwick::put(heap_, record_, text); }
    Put put(std::uint64_t number) { return florinwick::put(heap_, record_, number); }

    // Ascending, at the newest root; whole or not at all.
    Answer insert(const BatchArgument &batch) { return insert_at(root_, batch); }

    // At an older root, or at none. The newest root is then the one that this gives. Records go in by their bytes, as every other batch:
    // florinwick_insert_records does the same and cannot name a fault.
    Answer insert_at(std::uint64_t root, const BatchArgument &batch) {
        std::uint8_t words[FLORINWICK_ANSWER_BYTES];
        const ByteView bytes = batch.bytes();
        const detail::LaidRecord record(record_);
        florinwick_insert_named(detail::lent(bytes_), bytes_.size(), detail::lent(heap_), heap_.size(), record.data(), record.size(), root,
                                detail::lent(bytes), bytes.size(), detail::lent(scratch_), scratch_.size(), words, sizeof words);
        return moved_on(Answer::read(words));
    }

    // A new tree of a batch in any order.
    Answer initialise(const BatchArgument &batch) {
        std::uint8_t words[FLORINWICK_ANSWER_BYTES];
        const ByteView bytes = batch.bytes();
        const detail::LaidRecord record(record_);
        florinwick_initialise(detail::lent(bytes_), bytes_.size(), detail::lent(heap_), heap_.size(), record.data(), record.size(),
                              detail::lent(bytes), bytes.size(), detail::lent(scratch_), scratch_.size(), words, sizeof words);
        return moved_on(Answer::read(words));
    }

    // More room (after NoRoom): other bytes that begin with the pages in use. Readers and listings made before look at the bytes before.
    void lend(ByteArea bytes) { bytes_ = bytes; }
    // More room for constants (after HeapFull), in the same way.
    void lend_heap(ByteArea heap) { heap_ = heap; }

private:
    Answer moved_on(const Answer &answer) {
        record_ = record_after(record_, answer);
        if (answer.done()) root_ = answer.root;
        return answer;
    }

    ByteArea bytes_, heap_;
    ByteArea scratch_;
    StoreRecord record_;
    std::uint64_t root_;
};

}  // namespace florinwick

#endif
