#include "fault_words.h"

namespace florin {

using florinwick::Fault;

namespace {

const char kRestore[] = "restore the file from a backup and send the feed again with florin insert --resend";

// What can be done depends on where the fault lies, so several faults share their advice.
std::string advice_for(Fault fault) {
    switch (fault) {
        // The page's own bytes.
        case Fault::Level:
        case Fault::Count:
        case Fault::Form:
        case Fault::Order:
        case Fault::LeafChild:
        case Fault::LastChild:
        case Fault::ChildId:
            return std::string(kRestore) + "; florin check --all --walk names the roots that reach such a page, and the others can still be listed.";
        // The page, or the one that leads to it.
        case Fault::WrongLevel:
            return std::string("florin page shows the page, and florin tree the one that leads to it: one of the two is wrong; ") + kRestore + ".";
        // The check compares no datoms of different pages but with midpoints.
        case Fault::EqualDatoms:
            return "insert nothing at this root; take an older one that florin list lists to its end, or restore the file from a backup: "
                   "florin check does not look for datoms that stand twice.";
        // A lookup goes by the bounds.
        case Fault::OutOfBounds:
            return std::string("insert nothing at this root, as a repeat of that datom could pass; ") + kRestore +
                   "; florin check --all --walk names the roots with such a page.";
        // florin's cursors are the library's own, so the pages have changed under one.
        case Fault::Missing:
        case Fault::PastCount:
        case Fault::TooHigh:
        case Fault::NothingLeft:
            return "see that nothing else writes to the file, and run the command again; florin check says whether the tree is sound.";
    }
    return "";
}

}  // namespace

FaultWords fault_words(Fault fault) {
    return {std::string(florinwick::name(fault)), std::string(florinwick::text(fault)), advice_for(fault)};
}

Json fault_json(Fault fault) {
    const FaultWords words = fault_words(fault);
    return {{"number", static_cast<std::uint64_t>(fault)}, {"name", words.name}, {"text", words.text}, {"advice", words.advice}};
}

std::string fault_text(Fault fault) {
    const FaultWords words = fault_words(fault);
    return words.name + ": " + words.text;
}

std::string faults_text() {
    std::string lines;
    for (std::uint64_t number = FLORINWICK_FAULT_LEVEL; const auto fault = florinwick::fault_of(number); ++number) {
        const FaultWords words = fault_words(*fault);
        lines += "  " + words.name + std::string(13 - words.name.size(), ' ') + words.text + "\n";
    }
    return lines;
}

}  // namespace florin
