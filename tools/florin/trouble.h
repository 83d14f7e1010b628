// What can go wrong, each with a name, a number that is the exit status, and what to do next.
#ifndef FLORIN_TROUBLE_H
#define FLORIN_TROUBLE_H

#include "florinwick.hpp"
#include "json.h"

#include <optional>
#include <string>

namespace florin {

// Exit statuses besides those of the library, which are its numbers: 1 to 12, and 33 for Unsound. 13 is met by no store that opens.
enum Status {
    kDone = 0,
    kUsage = 64,         // wrong words on the command line
    kBadText = 65,       // a line of the input that is no datom
    kNoInput = 66,       // an input file that cannot be read
    kNotAStore = 67,     // a file that florin did not make
    kBadHead = 68,       // a store whose head or receipts are damaged
    kCutShort = 69,      // a store that is shorter than its head says
    kExists = 70,        // a file that stands where one is to be created
    kNoSpace = 71,       // a disk, a quota or a limit that is full
    kNotPermitted = 72,  // a file that may not be written or read
    kBusy = 73,          // a store that another process writes to
    kSystem = 74,        // anything else that the system refuses
    kAltered = 75,       // a page or a long value that is not as it was written
    kOtherFormat = 76,   // a store of an older or a newer florin
    kNotClosed = 77,     // an input that ends within a batch
    kNotARoot = 78,      // a root that no receipt gave, or an older one without a word that it is meant
};

// Thrown where a command cannot go on, and printed once, by main.
struct Trouble {
    int status;
    std::string name;
    std::string what;
    std::string next;
    Json more = {};      // what --json tells besides: batch, line, datom, page, fault
    std::optional<florinwick::Fault> fault = {};   // which rule the page broke, of Damaged and Unsound
};

// The trouble of a system call that failed on a file, from errno's number.
Trouble system_trouble(int error, const std::string &doing, const std::string &path);

// Words of the command line that say nothing that can be done.
Trouble usage_trouble(const std::string &what);

// In which words an answer that is not Done is told. `place` says which datom or page it speaks of, and may be empty.
Trouble refusal(const florinwick::Answer &answer, const std::string &place);
// Of a call with a batch, for a store of this order: in which its datoms rise.
Trouble refusal(const florinwick::Answer &answer, const std::string &place, florinwick::Order order);

// "none" for the page id that means it.
std::string page_text(std::uint64_t page);

// The page sizes, as a sentence has them.
std::string page_sizes_text();

// Every status with its name, as `florin --help` shows them.
std::string statuses_text();

// For people, or as one line of JSON.
void print(const Trouble &trouble, bool json);

}  // namespace florin

#endif
