#include "dump_text.h"

#include "datom_text.h"
#include "order_text.h"

#include <algorithm>
#include <cerrno>

namespace florin {

namespace {

const char kPlain[] = "1";
const char kWithLongValues[] = "2";
const char kWithOrder[] = "3";
const char kNoSum[] = "-";
const char kWelcome[] = "# A store of florin as text. florin load makes the same store of it; florin insert takes its batches.\n";
const char kNoStore[] = " No store was made.";

}  // namespace

std::string LinesSum::text() const { return sum_text(XXH64_digest(&state_)); }

// --- writing

std::string DumpText::head(const Head &head) {
    const bool has_order = head.order != florinwick::Order::Eavt;
    const char *form = has_order ? kWithOrder : head.heap_length > 0 ? kWithLongValues : kPlain;
    std::string text = std::string(kWelcome) + "#@ dump " + form + " page-size " + std::to_string(head.page_size) + " batches " +
                       std::to_string(head.receipts) + "\n";
    if (has_order) text += "#@ order " + order_name(head.order) + "\n";
    sum_.add(text);
    return text;
}

std::string DumpText::from_text(std::uint64_t root) const {
    const auto batch = batch_of_root_.find(root);
    return batch == batch_of_root_.end() ? page_text(root) : "@" + std::to_string(batch->second);
}

std::string DumpText::batch(const Receipt &receipt, const Batch &batch, const florinwick::HeapView &heap) {
    const auto number = [](const char *name, std::uint64_t value) { return std::string(name) + std::to_string(value); };
    const std::string note = number("#@ batch ", batch.number) + " from " + from_text(receipt.from) + number(" time ", receipt.time) +
                             number(" datoms ", receipt.datoms) + number(" pages ", receipt.pages) + number(" root ", receipt.root) +
                             " sum " + (receipt.is_upgraded() ? kNoSum : sum_text(receipt.datoms_sum)) + "\n";
    batch_of_root_[receipt.root] = batch.number;
    const std::string text = note + batch_text(batch, Form::Text, heap);
    sum_.add(text);
    return text;
}

std::string DumpText::end() const { return "#@ end " + sum_.text() + "\n"; }

// --- reading

DumpReader::DumpReader(const std::string &path) : path_(path), file_(path == "-" ? stdin : std::fopen(path.c_str(), "rb")) {
    if (file_ == nullptr) throw system_trouble(errno, "read", path);
    const std::vector<std::string> words = read_note({"dump", "page-size", "batches"});
    if (words[0] != kPlain && words[0] != kWithLongValues && words[0] != kWithOrder) {
        throw Trouble{kOtherFormat, "OtherFormat",
                      name() + " is a dump of form " + words[0] + ", of a newer florin." + kNoStore, "use that florin."};
    }
    page_size_ = number(words[1], "page size");
    batches_ = number(words[2], "number of batches");
    if (words[0] == kWithOrder) read_order();
}

bool DumpReader::next(DumpedBatch &dumped) {
    if (read_ == batches_) {
        read_end();
        return false;
    }
    const std::vector<std::string> words = read_note({"batch", "from", "time", "datoms", "pages", "root", "sum"});
    if (number(words[0], "batch") != read_ + 1) throw bad_line("batch " + std::to_string(read_ + 1) + " is due here, not " + words[0]);
    dumped = DumpedBatch{};
    dumped.batch.number = read_ + 1;
    dumped.from = words[1];
    dumped.time = number(words[2], "time");
    const std::uint64_t datoms = number(words[3], "number of datoms");
    dumped.pages = number(words[4], "number of pages");
    dumped.root = number(words[5], "root");
    read_datoms(dumped.batch);
    const Batch &batch = dumped.batch;
    if (batch.datoms() != datoms) throw altered(batch, "it has " + counted(batch.datoms(), "datom") + ", and had " + grouped(datoms));
    const std::string sum = sum_text(batch.sum({}));
    if (words[6] != kNoSum && words[6] != sum) throw altered(batch, "its datoms have another checksum");
    read_ += 1;
    return true;
}

// Every line of a dump has its end, so one that has none is where it was cut off.
bool DumpReader::read_line() {
    if (line_number_ > 0) sum_.add(line_ + "\n");
    line_.clear();
    line_number_ += 1;
    int c;
    while ((c = std::getc(file_.get())) != EOF && c != '\n') line_ += static_cast<char>(c);
    if (std::ferror(file_.get())) throw system_trouble(errno, "read", path_);
    if (c == EOF && !line_.empty()) throw cut_off();
    return c != EOF;
}

std::vector<std::string> DumpReader::read_note(const std::vector<std::string> &names) {
    const auto is_note = [this] { return line_.compare(0, 2, "#@") == 0; };
    do {
        if (!read_line()) throw cut_off();
    } while (line_.empty() || (line_[0] == '#' && !is_note()));
    std::vector<std::string> words, behind;
    try {
        if (is_note()) words = words_of_line(line_.substr(2));
    } catch (const BadText &bad) {
        throw bad_line(bad.message);
    }
    bool right = words.size() == 2 * names.size();
    for (std::size_t i = 0; right && i < names.size(); ++i) {
        right = words[2 * i] == names[i];
        behind.push_back(words[2 * i + 1]);
    }
    if (!right) throw bad_line("a line #@ " + names[0] + " .. of a dump is due here");
    return behind;
}

void DumpReader::read_order() {
    const std::vector<std::string> words = read_note({"order"}), names = order_names();
    if (std::find(names.begin(), names.end(), words[0]) == names.end()) {
        throw bad_line("the order " + words[0] + " is none of " + order_names_text());
    }
    order_ = order_named(words[0]);
}

void DumpReader::read_datoms(Batch &batch) {
    while (true) {
        if (!read_line()) throw cut_off();
        try {
            const std::vector<std::string> words = words_of_line(line_);
            if (words.size() == 1 && words[0] == "---") return;
            if (words.empty()) continue;
            batch.add(parse_datom(words));
            batch.lines.push_back(line_number_);
        } catch (const BadText &bad) {
            throw bad_line(bad.message);
        }
        if (batch.datoms() > FLORINWICK_BATCH_MAX) throw bad_line("a batch has at most 128 datoms, and here is one more");
    }
}

void DumpReader::read_end() {
    const std::vector<std::string> words = read_note({"end"});
    if (words[0] != sum_.text()) {
        throw Trouble{kAltered, "Altered",
                      name() + " is not as it was dumped: its lines have another checksum than its last one says." + kNoStore,
                      "take the dump as florin dump wrote it, or florin insert, which takes any text."};
    }
    if (read_line()) throw bad_line("the dump has ended, and here is more");
}

std::uint64_t DumpReader::number(const std::string &word, const std::string &what) const {
    try {
        return parse_number(word, what);
    } catch (const BadText &bad) {
        throw bad_line(bad.message);
    }
}

Trouble DumpReader::bad_line(const std::string &message) const {
    return {kBadText, "BadText", name() + ", line " + std::to_string(line_number_) + ": " + message + "." + kNoStore,
            "take a dump as florin dump wrote it; for other text there is florin insert.", {{"line", line_number_}}};
}

Trouble DumpReader::cut_off() const {
    if (line_number_ == 1 && line_.empty()) return bad_line("it is empty, and no dump");
    return {kNotClosed, "NotClosed",
            name() + " ends in line " + std::to_string(line_number_) + ", with " + grouped(read_) + " of " + counted(batches_, "batch") +
                " whole and no line #@ end." + kNoStore,
            "take the whole dump; what is there florin insert takes, batch by batch.", {{"line", line_number_}, {"batches", read_}}};
}

Trouble DumpReader::altered(const Batch &batch, const std::string &what) const {
    return {kAltered, "Altered",
            "batch " + std::to_string(batch.number) + " of " + name() + " is not as it was dumped: " + what + "." + kNoStore,
            "take the dump as florin dump wrote it, or florin insert, which takes any text.", {{"batch", batch.number}}};
}

Trouble DumpReader::refused(const florinwick::Answer &answer, const Batch &batch) const {
    const bool of_datom = answer.carries() == florinwick::Carries::Index;
    Trouble trouble = refusal(answer, of_datom ? batch.place_of(answer.detail, {}) : "batch " + std::to_string(batch.number), order_);
    trouble.more.put_all(batch.place_json(of_datom ? answer.detail : batch.datoms(), {}));
    trouble.what += kNoStore;
    return trouble;
}

}  // namespace florin
