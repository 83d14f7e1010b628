// The words of the command line: what each command may be given, and what was given. CLI11 reads them, in command_line.cpp alone.
#ifndef FLORIN_COMMAND_LINE_H
#define FLORIN_COMMAND_LINE_H

#include "output.h"

#include <cstdint>
#include <functional>
#include <optional>
#include <string>
#include <vector>

namespace CLI {
class App;
}

namespace florin {

// What a command does once its words are read. A trouble is thrown.
using Run = std::function<void(Output &)>;

// What a command says of its words. Each is read into a value that lives as long as what is run with it.
class Words {
public:
    explicit Words(CLI::App &app) : app_(app) {}

    // Without dashes. One that need not be given keeps its value.
    void word(const std::string &name, std::string &value, const std::string &help);
    void word_or_not(const std::string &name, std::string &value, const std::string &help);
    void choice(const std::string &name, std::string &value, const std::vector<std::string> &choices, const std::string &help);
    // With dashes: alone, or with a value, which `type` stands for in the help.
    void flag(const std::string &name, bool &value, const std::string &help);
    void text(const std::string &name, std::string &value, const std::string &type, const std::string &help);
    void text(const std::string &name, std::optional<std::string> &value, const std::string &type, const std::string &help);
    void number(const std::string &name, std::optional<std::uint64_t> &value, const std::string &type, const std::string &help);
    void number(const std::string &name, std::uint64_t &value, const std::string &type, const std::string &help, std::uint64_t least = 0,
                std::uint64_t most = UINT64_MAX);
    void seconds(const std::string &name, double &value, const std::string &help);
    void one_of(const std::string &name, std::string &value, const std::string &type, const std::vector<std::string> &choices,
                const std::string &help);
    // Behind the options.
    void footer(const std::string &text);

private:
    CLI::App &app_;
};

// What is to be run; nothing where help or the version was asked for, and printed. `json` is set where it is said. Throws Usage.
Run read_command_line(const std::vector<std::string> &words, bool &json);

// What the help says, for what else is made of it: the manual page, completions.
struct DescribedOption {
    std::vector<std::string> names;      // with their dashes; one without, for a word
    std::string type, help;              // no type for a flag
    std::vector<std::string> choices;    // what may stand there, if that is known
    bool is_word = false, is_required = false, is_help = false;

    bool takes_value() const { return !is_word && !type.empty(); }
};

struct DescribedCommand {
    std::string name, line, footer;
    std::vector<std::string> aliases;
    std::vector<DescribedOption> options;
};

struct Description {
    DescribedCommand florin;   // itself
    std::vector<DescribedCommand> commands;
};

Description described();

}  // namespace florin

#endif
