// A command of florin: a file of its own here, named as the command, and one line in commands.cpp.
#ifndef FLORIN_COMMANDS_COMMAND_H
#define FLORIN_COMMANDS_COMMAND_H

#include "command_line.h"

#include <vector>

namespace florin {

struct Command {
    const char *name;
    const char *line;                // what it does
    Run (*define)(Words &words);     // names its words and options, and gives what is run with them
};

// All of them, in the order in which the help shows them.
const std::vector<Command> &commands();

}  // namespace florin

#endif
