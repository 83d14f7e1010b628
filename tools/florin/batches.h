// Batches of datoms out of a file or the standard input, one at a time, so that a feed is inserted as it comes.
//
// A batch is handed out only once its end was seen, since a feed may be cut off anywhere:
//   text      a line --- ends it, or the N-th datom where the input is cut into batches of N
//   binary    it begins with its number of datoms, 8 bytes little-endian; then 32 bytes for each
// An input that ends within a batch is NotClosed. A batch without a datom is none, and is passed over.
#ifndef FLORIN_BATCHES_H
#define FLORIN_BATCHES_H

#include "florinwick.hpp"
#include "long_values.h"
#include "trouble.h"

#include <cstdio>
#include <map>
#include <string>
#include <vector>

namespace florin {

enum class Form { Text, Binary };

struct Batch {
    std::uint64_t number = 0;                // from 1 on
    std::vector<std::uint8_t> bytes;
    std::vector<std::uint64_t> lines;        // of each datom, in a text
    std::map<std::uint64_t, LongValue> long_values;   // of a text, by datom; StoreFile puts them on its heap, and their words into the bytes

    std::uint64_t datoms() const { return bytes.size() / florinwick::Datom::size; }
    florinwick::Datom datom(std::uint64_t at) const { return florinwick::Datom::read(bytes.data() + at * florinwick::Datom::size); }
    // One by its words, which name constants of the store that the batch is for.
    void add(const florinwick::Datom &datom);
    void add(const TypedDatom &typed);
    TypedDatom typed(std::uint64_t at) const;
    void set_value(std::uint64_t at, florinwick::Value value);
    // Each datom with its line and its long value. Their words have to name constants already.
    void sort(const florinwick::ByContent &less);
    // How a refusal names one of its datoms: batch, line and the datom itself. The heap is that of the store that the batch is for.
    std::string place_of(std::uint64_t at, const florinwick::HeapView &heap) const;
    Json place_json(std::uint64_t at, const florinwick::HeapView &heap) const;
    // Of its datoms as they stand here, which for the checksum of a receipt is ascending in the store's order.
    std::uint64_t sum(const florinwick::HeapView &heap) const;
};

// In the form in which Batches reads it. As text its long values are read on the heap; binary it has words, for the same store alone.
std::string batch_text(const Batch &batch, Form form, const florinwick::HeapView &heap);

class Batches {
public:
    struct Cut {
        std::uint64_t every = 0;       // a batch has so many datoms; 0 leaves it to the lines
        bool last_may_be_open = false; // the end of the input ends a batch too
    };

    // "-" is the standard input.
    Batches(const std::string &path, Form form, const Cut &cut);
    ~Batches();
    Batches(const Batches &) = delete;
    Batches &operator=(const Batches &) = delete;

    // The next batch, of one datom at least. False at the end. Throws Trouble at a line that is no datom, and at an end within a batch.
    bool next(Batch &batch);
    // For what rests on a batch being as it was read: a refusal of it, with its place. The reader is that of the store that refused it.
    Trouble refused(const florinwick::Answer &answer, const Batch &batch, const florinwick::Reader &reader) const;

private:
    // One more than the library takes, and none behind it: a batch too large is refused by the library and fills no memory.
    std::uint64_t most() const { return cut_.every != 0 ? cut_.every : FLORINWICK_BATCH_MAX + 1; }
    bool read_text(Batch &batch);
    bool read_binary(Batch &batch);
    bool read_line(std::string &line);
    std::string name() const { return path_ == "-" ? "the standard input" : path_; }
    Trouble bad_line(const std::string &message) const;
    Trouble not_closed(const Batch &batch) const;
    Trouble cut_binary(std::uint64_t batch, const std::string &how) const;

    std::string path_;
    Form form_;
    Cut cut_;
    std::FILE *file_;
    std::uint64_t batches_ = 0;
    std::uint64_t line_ = 0;
};

}  // namespace florin

#endif
