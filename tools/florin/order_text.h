// The orders that a store's datoms may be in, as a clerk reads and types them.
#ifndef FLORIN_ORDER_TEXT_H
#define FLORIN_ORDER_TEXT_H

#include "florinwick.hpp"

#include <string>
#include <vector>

namespace florin {

// eavt, aevt or avet.
std::string order_name(florinwick::Order order);
std::vector<std::string> order_names();
// All of them, as a sentence has them.
std::string order_names_text();
// Of one of the names.
florinwick::Order order_named(const std::string &name);

// By which words of a datom it goes: "entity, attribute, value, transaction".
std::string order_text(florinwick::Order order);
// The first of them: what of a datom tells where in a tree it stands, as far as one number can.
std::uint64_t first_word(const florinwick::Datom &datom, florinwick::Order order);
// "", or for another order than eavt that it is one, behind a store and its page size.
std::string order_note(florinwick::Order order);

}  // namespace florin

#endif
