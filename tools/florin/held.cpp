#include "held.h"

namespace florin {

using florinwick::Answer;
using florinwick::ByteView;
using florinwick::Datom;
using florinwick::Number;

std::vector<std::uint64_t> missing_of(const florinwick::Reader &reader, std::uint64_t root, const Batch &batch) {
    std::vector<std::uint64_t> missing;
    std::uint64_t from = 0;
    while (true) {
        const Answer answer = reader.held(root, ByteView(batch.bytes).from(from * Datom::size));
        if (answer.done()) return missing;
        const std::uint64_t at = from + answer.detail;
        if (answer.number != Number::NotHeld) {
            const bool of_datom = answer.carries() == florinwick::Carries::Index;
            throw refusal(answer, of_datom ? batch.place_of(at, reader.heap()) : "batch " + std::to_string(batch.number), reader.order());
        }
        missing.push_back(at);
        from = at + 1;
    }
}

}  // namespace florin
