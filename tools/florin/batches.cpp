#include "batches.h"

#include "checksum.h"
#include "datom_text.h"

#include <algorithm>
#include <cerrno>
#include <numeric>

namespace florin {

using florinwick::Datom;
using florinwick::HeapView;

namespace {

const char kBinaryForm[] = "A binary batch is its number of datoms, 8 bytes little-endian, then 32 bytes for each.";

}  // namespace

void Batch::add(const Datom &datom) {
    bytes.resize(bytes.size() + Datom::size);
    datom.write(bytes.data() + bytes.size() - Datom::size);
}

void Batch::add(const TypedDatom &typed) {
    if (typed.long_value) long_values[datoms()] = *typed.long_value;
    add(typed.datom);
}

TypedDatom Batch::typed(std::uint64_t at) const {
    const auto value = long_values.find(at);
    return {datom(at), value == long_values.end() ? std::nullopt : std::optional<LongValue>(value->second)};
}

void Batch::set_value(std::uint64_t at, florinwick::Value value) {
    Datom changed = datom(at);
    changed.value = value;
    changed.write(bytes.data() + at * Datom::size);
}

void Batch::sort(const florinwick::ByContent &less) {
    std::vector<std::uint64_t> order(datoms());
    std::iota(order.begin(), order.end(), std::uint64_t{0});
    std::stable_sort(order.begin(), order.end(), [&](std::uint64_t a, std::uint64_t b) { return less(datom(a), datom(b)); });
    Batch sorted;
    sorted.number = number;
    for (std::uint64_t at : order) {
        sorted.add(typed(at));
        if (at < lines.size()) sorted.lines.push_back(lines[at]);
    }
    *this = std::move(sorted);
}

std::string Batch::place_of(std::uint64_t at, const HeapView &heap) const {
    std::string place = "batch " + std::to_string(number);
    if (at < lines.size()) place += ", line " + std::to_string(lines[at]);
    if (at < datoms()) place += ": " + datom_text(typed(at), heap);
    return place;
}

Json Batch::place_json(std::uint64_t at, const HeapView &heap) const {
    Json place = {{"batch", number}};
    if (at < lines.size()) place.put("line", lines[at]);
    if (at < datoms()) place.put("text", datom_text(typed(at), heap));
    return place;
}

std::uint64_t Batch::sum(const HeapView &heap) const {
    std::vector<std::uint8_t> summed;
    for (std::uint64_t at = 0; at < datoms(); ++at) {
        const auto value = long_values.find(at);
        if (value != long_values.end()) {
            add_summed(summed, datom(at), value->second);
        } else {
            add_summed(summed, datom(at), heap);
        }
    }
    return checksum(summed.data(), summed.size());
}

std::string batch_text(const Batch &batch, Form form, const HeapView &heap) {
    std::string text;
    if (form == Form::Binary) {
        std::uint8_t count[8];
        florinwick::put_word(count, batch.datoms());
        text.assign(count, count + sizeof count);
        return text.append(batch.bytes.begin(), batch.bytes.end());
    }
    for (std::uint64_t i = 0; i < batch.datoms(); ++i) text += datom_text(batch.typed(i), heap) + "\n";
    return text + "---\n";
}

Batches::Batches(const std::string &path, Form form, const Cut &cut)
    : path_(path), form_(form), cut_(cut), file_(path == "-" ? stdin : std::fopen(path.c_str(), "rb")) {
    if (file_ == nullptr) throw system_trouble(errno, "read", path);
}

Batches::~Batches() {
    if (file_ != stdin) std::fclose(file_);
}

bool Batches::next(Batch &batch) {
    batch = Batch{};
    batch.number = batches_ + 1;
    const bool found = form_ == Form::Text ? read_text(batch) : read_binary(batch);
    if (std::ferror(file_)) throw system_trouble(errno, "read", path_);
    if (found) ++batches_;
    return found;
}

Trouble Batches::refused(const florinwick::Answer &answer, const Batch &batch, const florinwick::Reader &reader) const {
    const bool of_datom = answer.carries() == florinwick::Carries::Index;
    const HeapView heap = reader.heap();
    Trouble trouble = refusal(answer, of_datom ? batch.place_of(answer.detail, heap) : "batch " + std::to_string(batch.number), reader.order());
    trouble.more.put_all(batch.place_json(of_datom ? answer.detail : batch.datoms(), heap));
    return trouble;
}

bool Batches::read_line(std::string &line) {
    line.clear();
    int c;
    while ((c = std::getc(file_)) != EOF && c != '\n') line += static_cast<char>(c);
    if (c == EOF && line.empty()) return false;
    ++line_;
    return true;
}

Trouble Batches::bad_line(const std::string &message) const {
    return {kBadText, "BadText", name() + ", line " + std::to_string(line_) + ": " + message + ". Nothing of its batch was written.",
            "correct the line; florin insert --help shows the form. Batches before it are in: send from this one on.",
            {{"batch", batches_ + 1}, {"line", line_}}};
}

Trouble Batches::not_closed(const Batch &batch) const {
    const std::uint64_t first = batch.lines.empty() ? line_ : batch.lines[0];
    return {kNotClosed, "NotClosed",
            name() + " ends within batch " + std::to_string(batch.number) + ", which begins in line " + std::to_string(first) + ": " +
                counted(batch.datoms(), "datom") + " and no line --- behind them. Nothing of it was written.",
            "if the input was cut off, send this batch again, whole; if it is whole, end it with a line ---, or say --last-batch-open.",
            {{"batch", batch.number}, {"line", first}, {"datoms", batch.datoms()}}};
}

bool Batches::read_text(Batch &batch) {
    std::string line;
    while (batch.datoms() < most()) {
        if (!read_line(line)) {
            if (batch.bytes.empty() || std::ferror(file_)) return false;
            if (!cut_.last_may_be_open) throw not_closed(batch);
            return true;
        }
        try {
            const std::vector<std::string> words = words_of_line(line);
            if (words.size() == 1 && words[0] == "---") {
                if (!batch.bytes.empty()) return true;
            } else if (!words.empty()) {
                batch.add(parse_datom(words));
                batch.lines.push_back(line_);
            }
        } catch (const BadText &bad) {
            throw bad_line(bad.message);
        }
    }
    return true;
}

Trouble Batches::cut_binary(std::uint64_t batch, const std::string &how) const {
    return {kNotClosed, "NotClosed", name() + " ends within batch " + std::to_string(batch) + ": " + how + ". Nothing of it was written.",
            std::string("if the input was cut off, send this batch again, whole. ") + kBinaryForm, {{"batch", batch}}};
}

bool Batches::read_binary(Batch &batch) {
    std::uint64_t declared = 0;
    while (declared == 0) {
        std::uint8_t word[8];
        const std::size_t got = std::fread(word, 1, sizeof word, file_);
        if (got == 0 || std::ferror(file_)) return false;
        if (got < sizeof word) throw cut_binary(batch.number, "its number of datoms has " + counted(got, "byte") + " of 8");
        declared = florinwick::get_word(word);
    }
    if (declared > FLORINWICK_BATCH_MAX) {
        throw Trouble{static_cast<int>(florinwick::Number::TooMany), "TooMany",
                      "batch " + std::to_string(batch.number) + " says that it has " + grouped(declared) +
                          " datoms. A batch has at most 128. Nothing of it was written.",
                      std::string("cut it into batches. ") + kBinaryForm, {{"batch", batch.number}}};
    }
    batch.bytes.resize(declared * Datom::size);
    const std::size_t got = std::fread(batch.bytes.data(), 1, batch.bytes.size(), file_);
    if (got < batch.bytes.size() && !std::ferror(file_)) {
        throw cut_binary(batch.number, "of the " + counted(declared, "datom") + " that it says, " + counted(got, "byte") + " are there, not " +
                                           grouped(batch.bytes.size()));
    }
    return true;
}

}  // namespace florin
