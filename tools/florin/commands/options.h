// Words that several commands share, with one meaning and one line of help.
#ifndef FLORIN_COMMANDS_OPTIONS_H
#define FLORIN_COMMANDS_OPTIONS_H

#include "batches.h"
#include "command_line.h"
#include "store_file.h"

#include <memory>
#include <optional>
#include <string>

namespace florin {

// STORE, to be read. Opening tells of a broken head on the standard error.
struct StoreToRead {
    std::string path;
    bool salvage = false;

    void define(Words &words);
    // With --salvage, for what needs no receipts.
    void define_with_salvage(Words &words);
    std::unique_ptr<StoreFile> open() const;
};

// STORE, to be written to, with --wait.
struct StoreToWrite {
    std::string path;
    double wait = 0;

    void define(Words &words);
    std::unique_ptr<StoreFile> open() const;
};

// --root: a page number, @N, or none; the newest if it is not given.
struct RootOption {
    std::optional<std::string> word;

    void define(Words &words, const std::string &help);
    std::uint64_t of(const StoreFile &store) const;
};

// --from and --to.
struct BoundsOptions {
    std::optional<std::string> from, to;

    void define(Words &words);
    TypedDatom lower() const;
    TypedDatom upper() const;
};

// --binary
struct FormOption {
    bool binary = false;

    void define(Words &words, const std::string &help);
    Form form() const { return binary ? Form::Binary : Form::Text; }
};

// FILE, --binary, --every, --last-batch-open and --sort.
struct InputOptions {
    std::string path = "-";
    FormOption form;
    Batches::Cut cut;
    bool sort = false;   // each batch, into the order of the store

    void define(Words &words);
    std::unique_ptr<Batches> open() const;
};

// As `--help` of a command shows it, below its options.
extern const char kDatomsHelp[];
extern const char kBoundsHelp[];

// A number out of a word of the command line, else Usage.
std::uint64_t number_word(const std::string &word, const std::string &what);

}  // namespace florin

#endif
