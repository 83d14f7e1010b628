#include "datom_text.h"

#include <cctype>
#include <cstdio>

namespace florin {

using florinwick::Datom;
using florinwick::HeapView;
using florinwick::Value;

namespace {

const std::uint64_t kMax = FLORINWICK_MAX;

bool is_space(char c) { return c == ' ' || c == '\t' || c == '\r'; }

int hex_digit(char c) {
    if (c >= '0' && c <= '9') return c - '0';
    if (c >= 'a' && c <= 'f') return c - 'a' + 10;
    if (c >= 'A' && c <= 'F') return c - 'A' + 10;
    return -1;
}

// The end of a quoted word that begins at `at`: behind its closing quote.
std::size_t end_of_quoted(const std::string &line, std::size_t at) {
    for (std::size_t i = at + 1; i < line.size(); ++i) {
        if (line[i] == '\\') {
            ++i;
        } else if (line[i] == '"') {
            return i + 1;
        }
    }
    throw BadText{"the string " + line.substr(at) + " has no closing quote"};
}

std::size_t end_of_word(const std::string &line, std::size_t at) {
    if (line[at] == '"') return end_of_quoted(line, at);
    while (at < line.size() && !is_space(line[at]) && line[at] != '#') ++at;
    return at;
}

// Between the quotes: any byte, with \" and \\ for these two and \xNN for a byte by its number.
std::string unquoted(const std::string &word) {
    std::string bytes;
    for (std::size_t i = 1; i + 1 < word.size(); ++i) {
        if (word[i] != '\\') {
            bytes += word[i];
        } else if (word[i + 1] == 'x' && i + 4 < word.size() && hex_digit(word[i + 2]) >= 0 && hex_digit(word[i + 3]) >= 0) {
            bytes += static_cast<char>(hex_digit(word[i + 2]) * 16 + hex_digit(word[i + 3]));
            i += 3;
        } else if ((word[i + 1] == '"' || word[i + 1] == '\\') && i + 2 < word.size()) {
            bytes += word[++i];
        } else {
            throw BadText{"in the string " + word + " a backslash stands before neither \" nor \\ nor xNN"};
        }
    }
    return bytes;
}

// A word of 64 bits as it is, so that what the library refuses can be written down and read again.
std::uint64_t parse_raw(const std::string &word) {
    std::uint64_t number = 0;
    if (word.size() < 3 || word.size() > 18) throw BadText{"the value " + word + " has not 1 to 16 hexadecimal digits"};
    for (std::size_t i = 2; i < word.size(); ++i) {
        if (hex_digit(word[i]) < 0) throw BadText{"the value " + word + " is no hexadecimal number"};
        number = number << 4 | static_cast<std::uint64_t>(hex_digit(word[i]));
    }
    return number;
}

// A value that has an inline form goes into the word, any other beside it.
template <class Content>
void take_value(TypedDatom &typed, const std::optional<Value> &value, const Content &content) {
    typed.datom.value = value.value_or(Value::max());
    if (!value) typed.long_value = content;
}

void parse_value(TypedDatom &typed, const std::string &word) {
    if (word == "max") {
        typed.datom.value = Value::max();
    } else if (word[0] == '"') {
        const std::string text = unquoted(word);
        take_value(typed, Value::text(text), text);
    } else if (word.compare(0, 2, "0x") == 0) {
        typed.datom.value = Value{parse_raw(word)};
    } else {
        const std::uint64_t number = parse_number(word, "value");
        take_value(typed, Value::integer(number), number);
    }
}

std::uint64_t parse_transaction(const std::string &word) {
    const std::uint64_t transaction = parse_number(word, "transaction");
    if (transaction % 2 != 0) throw BadText{"the transaction " + word + " is odd; transactions are even"};
    return transaction;
}

std::uint64_t parse_operation(const std::string &word) {
    if (word == "assert" || word == "+") return 1;
    if (word == "retract" || word == "-") return 0;
    throw BadText{"the last word is " + word + ", not assert or retract"};
}

std::uint64_t number_or_max(const std::string &word, const std::string &what) {
    return word == "max" ? kMax : parse_number(word, what);
}

}  // namespace

std::vector<std::string> words_of_line(const std::string &line) {
    std::vector<std::string> words;
    std::size_t at = 0;
    while (at < line.size() && line[at] != '#') {
        if (is_space(line[at])) {
            ++at;
            continue;
        }
        const std::size_t end = end_of_word(line, at);
        words.push_back(line.substr(at, end - at));
        at = end;
    }
    return words;
}

std::uint64_t parse_number(const std::string &word, const std::string &what) {
    std::uint64_t number = 0;
    if (word.empty()) throw BadText{"the " + what + " is missing"};
    for (char c : word) {
        if (!std::isdigit(static_cast<unsigned char>(c))) throw BadText{"the " + what + " " + word + " is no number"};
        const std::uint64_t digit = static_cast<std::uint64_t>(c - '0');
        if (number > (kMax - digit) / 10) throw BadText{"the " + what + " " + word + " is 2^64 or more"};
        number = number * 10 + digit;
    }
    return number;
}

TypedDatom parse_datom(const std::vector<std::string> &words) {
    if (words.size() != 5) {
        throw BadText{"a datom has 5 words, entity attribute value transaction assert|retract, and here are " + std::to_string(words.size())};
    }
    TypedDatom typed;
    typed.datom.entity = parse_number(words[0], "entity");
    typed.datom.attribute = parse_number(words[1], "attribute");
    parse_value(typed, words[2]);
    typed.datom.transaction_operation = parse_transaction(words[3]) + parse_operation(words[4]);
    return typed;
}

TypedDatom parse_bound(const std::string &text) {
    const std::vector<std::string> words = words_of_line(text);
    if (words.empty() || words.size() > 5) throw BadText{"a bound has 1 to 5 words, and \"" + text + "\" has " + std::to_string(words.size())};
    TypedDatom typed{Datom::min()};
    Datom &bound = typed.datom;
    bound.entity = number_or_max(words[0], "entity");
    if (words.size() > 1) bound.attribute = number_or_max(words[1], "attribute");
    if (words.size() > 2) parse_value(typed, words[2]);
    if (words.size() > 3) bound.transaction_operation = words[3] == "max" ? kMax : parse_transaction(words[3]);
    if (words.size() > 4) bound.transaction_operation |= parse_operation(words[4]);
    return typed;
}

namespace {

std::string quoted(std::string_view bytes) {
    std::string text = "\"";
    for (char c : bytes) {
        char escaped[8];
        if (c == '"' || c == '\\') {
            text += '\\';
            text += c;
        } else if (c < ' ' || c > '~') {
            std::snprintf(escaped, sizeof escaped, "\\x%02x", static_cast<unsigned>(static_cast<unsigned char>(c)));
            text += escaped;
        } else {
            text += c;
        }
    }
    return text + "\"";
}

}  // namespace

std::string grouped(std::uint64_t number) {
    std::string digits = std::to_string(number);
    for (std::size_t at = digits.size(); at > 3; at -= 3) digits.insert(at - 3, ",");
    return digits;
}

std::string counted(std::uint64_t number, const std::string &thing) {
    const bool hisses = thing.size() > 1 && thing.compare(thing.size() - 2, 2, "ch") == 0;
    return grouped(number) + " " + thing + (number == 1 ? "" : hisses ? "es" : "s");
}

std::string value_text(Value value, const HeapView &heap) {
    if (const auto integer = heap.integer_of(value)) return std::to_string(*integer);
    if (const auto text = heap.text_of(value)) return quoted(text->view());
    if (value.is_max()) return "max";
    char raw[24];
    std::snprintf(raw, sizeof raw, "0x%016llx", static_cast<unsigned long long>(value.word));
    return raw;
}

std::string value_text(const LongValue &value) {
    if (const auto *integer = std::get_if<std::uint64_t>(&value)) return std::to_string(*integer);
    return quoted(std::get<std::string>(value));
}

std::string short_value_text(Value value, const HeapView &heap, std::size_t most) {
    const std::string text = value_text(value, heap);
    return text.size() <= most ? text : text.substr(0, most - 3) + "..\"";
}

namespace {

Json value_json(Value value, const HeapView &heap) {
    if (const auto integer = heap.integer_of(value)) return *integer;
    const auto bytes = heap.text_of(value);
    if (!bytes) return value_text(value, heap);
    std::string text, hex;
    bool printable = true;
    for (char c : bytes->view()) {
        char digits[4];
        std::snprintf(digits, sizeof digits, "%02x", static_cast<unsigned>(static_cast<unsigned char>(c)));
        text += c;
        hex += digits;
        printable = printable && c >= ' ' && c <= '~';
    }
    return printable ? Json(text) : Json{{"bytes", hex}};
}

}  // namespace

Json datom_json(const Datom &datom, const HeapView &heap, std::uint64_t batch) {
    Json object = {{"entity", datom.entity}, {"attribute", datom.attribute}, {"value", value_json(datom.value, heap)},
                   {"transaction", datom.transaction()}, {"operation", datom.is_assert() ? "assert" : "retract"}};
    if (batch != 0) object.put("batch", batch);
    return object;
}

std::string sum_text(std::uint64_t sum) {
    char text[24];
    std::snprintf(text, sizeof text, "%016llx", static_cast<unsigned long long>(sum));
    return text;
}

namespace {

std::string datom_text(const Datom &datom, const std::string &value) {
    return std::to_string(datom.entity) + " " + std::to_string(datom.attribute) + " " + value + " " + std::to_string(datom.transaction()) +
           (datom.is_assert() ? " assert" : " retract");
}

}  // namespace

std::string datom_text(const Datom &datom, const HeapView &heap) { return datom_text(datom, value_text(datom.value, heap)); }

std::string datom_text(const TypedDatom &typed, const HeapView &heap) {
    return typed.long_value ? datom_text(typed.datom, value_text(*typed.long_value)) : datom_text(typed.datom, heap);
}

}  // namespace florin
