// A value for --json, with the members of an object in the order in which they were put in.
//
// nlohmann's library writes it out, in json.cpp; it is kept out of here, as it would cost every file seconds to compile.
#ifndef FLORIN_JSON_H
#define FLORIN_JSON_H

#include "florinwick.hpp"

#include <initializer_list>
#include <string>
#include <type_traits>
#include <utility>
#include <variant>
#include <vector>

namespace florin {

class Json {
public:
    using Member = std::pair<std::string, Json>;

    Json() = default;   // null
    Json(std::nullptr_t) {}
    Json(bool value) : value_(value) {}
    template <class Number, class = std::enable_if_t<std::is_unsigned_v<Number> && !std::is_same_v<Number, bool>>>
    Json(Number number) : value_(std::uint64_t{number}) {}
    Json(int number) : value_(static_cast<std::uint64_t>(number)) {}   // no number here is below zero
    Json(const char *text) : value_(std::string(text)) {}
    Json(const std::string &text) : value_(text) {}
    Json(std::initializer_list<Member> members) : value_(std::vector<Member>(members)) {}
    static Json array(std::vector<Json> elements);

    // Of an object, or of null, which becomes one.
    void put(const std::string &name, const Json &value);
    void put_all(const Json &object);
    // Null if there is none of that name.
    const Json &operator[](const std::string &name) const;

    std::string text() const;

private:
    friend struct Written;
    std::variant<std::nullptr_t, bool, std::uint64_t, std::string, std::vector<Json>, std::vector<Member>> value_ = nullptr;
};

// null for the page id that means none.
inline Json page_json(std::uint64_t page) { return page == florinwick::none ? Json() : Json(page); }

}  // namespace florin

#endif
