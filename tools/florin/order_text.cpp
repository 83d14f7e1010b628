#include "order_text.h"

#include <algorithm>
#include <iterator>

namespace florin {

using florinwick::Order;

std::string order_name(Order order) { return std::string(florinwick::name(order)); }

std::vector<std::string> order_names() {
    std::vector<std::string> names;
    for (Order order : florinwick::orders) names.push_back(order_name(order));
    return names;
}

std::string order_names_text() {
    const std::vector<std::string> names = order_names();
    std::string text = names[0];
    for (std::size_t i = 1; i < names.size(); ++i) text += (i + 1 == names.size() ? " or " : ", ") + names[i];
    return text;
}

Order order_named(const std::string &name) {
    return *std::find_if(std::begin(florinwick::orders), std::end(florinwick::orders),
                         [&](Order order) { return florinwick::name(order) == name; });
}

std::string order_text(Order order) {
    switch (order) {
        case Order::Eavt: return "entity, attribute, value, transaction";
        case Order::Aevt: return "attribute, entity, value, transaction";
        case Order::Avet: return "attribute, value, entity, transaction";
    }
    return "unknown";
}

std::uint64_t first_word(const florinwick::Datom &datom, Order order) { return order == Order::Eavt ? datom.entity : datom.attribute; }

std::string order_note(Order order) { return order == Order::Eavt ? "" : ", order " + order_name(order); }

}  // namespace florin
