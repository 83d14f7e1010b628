// What a command says on the standard output: lines for people or, with --json, one object a line for programs.
#ifndef FLORIN_OUTPUT_H
#define FLORIN_OUTPUT_H

#include "json.h"

#include <string>

namespace florin {

class Output {
public:
    explicit Output(bool json) : json_(json) {}

    bool json() const { return json_; }
    // One of the two, with the line's end.
    void tell(const std::string &text, const Json &object);
    // For people alone.
    void text(const std::string &text);
    // Output that is lost must not look like success.
    void flush();

private:
    bool json_;
};

}  // namespace florin

#endif
