#include "output.h"

#include "trouble.h"

#include <cerrno>
#include <cstdio>

namespace florin {

namespace {

void write(const std::string &bytes) { std::fwrite(bytes.data(), 1, bytes.size(), stdout); }

}  // namespace

void Output::tell(const std::string &text, const Json &object) { write(json_ ? object.text() + "\n" : text + "\n"); }

void Output::text(const std::string &text) {
    if (!json_) write(text + "\n");
}

void Output::flush() {
    if (std::fflush(stdout) != 0 || std::ferror(stdout)) throw system_trouble(errno, "write to", "the standard output");
}

}  // namespace florin
