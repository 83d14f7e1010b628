// A store as text, from which an equal one can be made: florin dump writes it, florin load reads it.
//
//     # A store of florin as text. ..
//     #@ dump 1 page-size 256 batches 2
//     #@ batch 1 from none time 1794767655 datoms 2 pages 1 root 0 sum 5b385d84b5f6b980
//     7001 1 "FGBL" 2 assert
//     7001 2 13142 2 assert
//     ---
//     #@ batch 2 from @1 ..
//     ..
//     ---
//     #@ end 93a1b86f6ad7d0c8
//
// A line #@ has names and what they are. To florin insert it is a comment, so that takes a dump too, as the batches that it has.
//   from   the batch whose root this one was inserted at, not the root's page: in a store with another page size that is another one. Only
//          where no batch led to it, as florin 0.1 allowed, it is the page.
//   dump   the form: 2 where there are long values, which stand in their lines as all others; a florin before 0.5 refuses it by name.
//          3 where the store has another order than eavt, with or without long values: a line #@ order aevt, or avet, is next, and in
//          each batch the datoms rise in that order. A florin before 0.6 refuses it by name
//   sum    checksum of the datoms, as florin roots shows it; - where the store has none
//   end    checksum of all lines before it. A dump without it was cut off.
#ifndef FLORIN_DUMP_TEXT_H
#define FLORIN_DUMP_TEXT_H

#include "batches.h"
#include "store_format.h"

#include <xxhash.h>

#include <cstdio>
#include <map>
#include <memory>
#include <string>
#include <vector>

namespace florin {

// The checksum of lines, with their ends.
class LinesSum {
public:
    LinesSum() { XXH64_reset(&state_, 0); }
    void add(const std::string &lines) { XXH64_update(&state_, lines.data(), lines.size()); }
    // As a dump has it.
    std::string text() const;

private:
    XXH64_state_t state_;
};

// The text of a dump, part by part: the head, each batch, the end.
class DumpText {
public:
    std::string head(const Head &head);
    std::string batch(const Receipt &receipt, const Batch &batch, const florinwick::HeapView &heap);
    std::string end() const;

private:
    std::string from_text(std::uint64_t root) const;

    LinesSum sum_;
    std::map<std::uint64_t, std::uint64_t> batch_of_root_;
};

// What a dump says of a batch.
struct DumpedBatch {
    Batch batch;
    std::string from;           // none, @K or a page
    std::uint64_t time = 0, pages = 0, root = 0;
};

// Reads a dump, and compares what can be compared without a tree: order, numbers and checksums. Throws Trouble: BadText at a line that is
// none of a dump, Altered where something was changed, NotClosed where it is cut off.
class DumpReader {
public:
    // "-" is the standard input.
    explicit DumpReader(const std::string &path);

    std::uint64_t page_size() const { return page_size_; }
    florinwick::Order order() const { return order_; }
    // The next batch, with the datoms that were dumped. False once the last line was read, and is right.
    bool next(DumpedBatch &dumped);
    // Something of a batch is not as it was dumped.
    Trouble altered(const Batch &batch, const std::string &what) const;
    // The library does not take it.
    Trouble refused(const florinwick::Answer &answer, const Batch &batch) const;

private:
    struct Closer {
        void operator()(std::FILE *file) const { std::fclose(file); }
    };

    // The next line; the checksum is that of the lines before it.
    bool read_line();
    // What stands behind these names in the next line #@.
    std::vector<std::string> read_note(const std::vector<std::string> &names);
    void read_order();
    void read_datoms(Batch &batch);
    void read_end();
    std::uint64_t number(const std::string &word, const std::string &what) const;
    std::string name() const { return path_ == "-" ? "the standard input" : path_; }
    Trouble bad_line(const std::string &message) const;
    Trouble cut_off() const;

    std::string path_;
    std::unique_ptr<std::FILE, Closer> file_;
    std::string line_;
    LinesSum sum_;
    std::uint64_t line_number_ = 0, page_size_ = 0, batches_ = 0, read_ = 0;
    florinwick::Order order_ = florinwick::Order::Eavt;
};

}  // namespace florin

#endif
