// What florin says of a fault that a page has: the one place that gives its name, what it means and what an operator can do.
#ifndef FLORIN_FAULT_WORDS_H
#define FLORIN_FAULT_WORDS_H

#include "florinwick.hpp"
#include "json.h"

#include <string>

namespace florin {

struct FaultWords {
    std::string name;     // as the library's headers have it
    std::string text;     // what it means; "it" is the page
    std::string advice;   // one line, with florin's own commands
};

FaultWords fault_words(florinwick::Fault fault);

// The number and the words, as --json has them beside the page.
Json fault_json(florinwick::Fault fault);

// "Count: it counts more datoms than a page of its size holds"
std::string fault_text(florinwick::Fault fault);

// Every fault with what it means, a line for each, as `florin check --help` shows them.
std::string faults_text();

}  // namespace florin

#endif
