// Datoms as a clerk reads and types them: entity attribute value transaction assert|retract.
#ifndef FLORIN_DATOM_TEXT_H
#define FLORIN_DATOM_TEXT_H

#include "florinwick.hpp"
#include "json.h"
#include "long_values.h"

#include <string>
#include <vector>

namespace florin {

// A line that is no datom; its message says which word is wrong.
struct BadText {
    std::string message;
};

// The words of a line up to a comment. A string in quotes is one word, and keeps its quotes. Throws BadText if its end is missing.
std::vector<std::string> words_of_line(const std::string &line);

// Of five words. Throws BadText.
TypedDatom parse_datom(const std::vector<std::string> &words);

// Of one to five words, where max may stand for any of them; what is left out is the least. Throws BadText.
TypedDatom parse_bound(const std::string &text);

// A decimal number. Throws BadText, which calls it `what`.
std::uint64_t parse_number(const std::string &word, const std::string &what);

// "1,024", as every count is told; numbers of pages, roots and batches are names, and have no commas.
std::string grouped(std::uint64_t number);
// "1 page", "1,024 pages", "2 batches"
std::string counted(std::uint64_t number, const std::string &thing);

// A long value is read where it lies on the heap. What is no value there is shown as a raw word.
std::string value_text(florinwick::Value value, const florinwick::HeapView &heap);
std::string value_text(const LongValue &value);
// In so many characters at most, with dots where something is left out.
std::string short_value_text(florinwick::Value value, const florinwick::HeapView &heap, std::size_t most);
std::string datom_text(const florinwick::Datom &datom, const florinwick::HeapView &heap);
std::string datom_text(const TypedDatom &typed, const florinwick::HeapView &heap);
// A string with other bytes than those of printable ASCII is an object with its bytes in hexadecimal. With the batch, if it is not 0.
Json datom_json(const florinwick::Datom &datom, const florinwick::HeapView &heap, std::uint64_t batch = 0);
// A checksum, as xxh64sum prints it.
std::string sum_text(std::uint64_t sum);

}  // namespace florin

#endif
