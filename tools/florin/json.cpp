#include "json.h"

#include <nlohmann/json.hpp>

namespace florin {

Json Json::array(std::vector<Json> elements) {
    Json json;
    json.value_ = std::move(elements);
    return json;
}

void Json::put(const std::string &name, const Json &value) {
    if (!std::holds_alternative<std::vector<Member>>(value_)) value_ = std::vector<Member>();
    auto &members = std::get<std::vector<Member>>(value_);
    for (Member &member : members) {
        if (member.first != name) continue;
        member.second = value;
        return;
    }
    members.emplace_back(name, value);
}

void Json::put_all(const Json &object) {
    if (const auto *members = std::get_if<std::vector<Member>>(&object.value_)) {
        for (const Member &member : *members) put(member.first, member.second);
    }
}

const Json &Json::operator[](const std::string &name) const {
    static const Json null;
    if (const auto *members = std::get_if<std::vector<Member>>(&value_)) {
        for (const Member &member : *members) {
            if (member.first == name) return member.second;
        }
    }
    return null;
}

// The same value as the library has it.
struct Written {
    using Library = nlohmann::ordered_json;

    static Library of(const Json &json) { return std::visit(Written{}, json.value_); }

    template <class Scalar>
    Library operator()(const Scalar &value) const {
        return value;
    }
    Library operator()(const std::vector<Json> &elements) const {
        Library array = Library::array();
        for (const Json &element : elements) array.push_back(of(element));
        return array;
    }
    Library operator()(const std::vector<Json::Member> &members) const {
        Library object = Library::object();
        for (const Json::Member &member : members) object[member.first] = of(member.second);
        return object;
    }
};

// Bytes that are no UTF-8, as a file's name may have them, are replaced: JSON cannot carry them.
std::string Json::text() const { return Written::of(*this).dump(-1, ' ', false, Written::Library::error_handler_t::replace); }

}  // namespace florin
