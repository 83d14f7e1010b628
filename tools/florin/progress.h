// A line on the terminal that says how far a long work is. Nothing is shown where the standard error is no terminal.
#ifndef FLORIN_PROGRESS_H
#define FLORIN_PROGRESS_H

#include <chrono>
#include <cstdio>
#include <string>

#include <unistd.h>

namespace florin {

class Progress {
public:
    Progress() : shown_(isatty(STDERR_FILENO) == 1) {}
    ~Progress() { clear(); }

    // Ten times a second at most; `text` is called only then. The first line waits, so that short work shows none.
    template <class Text>
    void tell(Text text) {
        if (!shown_ || std::chrono::steady_clock::now() < next_) return;
        std::fprintf(stderr, "\r\033[K%s", std::string(text()).c_str());
        std::fflush(stderr);
        dirty_ = true;
        next_ = std::chrono::steady_clock::now() + std::chrono::milliseconds(100);
    }
    // At once, for work that cannot be followed.
    void announce(const std::string &text) {
        next_ = {};
        tell([&] { return text; });
    }
    void clear() {
        if (dirty_) std::fputs("\r\033[K", stderr);
        dirty_ = false;
    }

private:
    bool shown_;
    bool dirty_ = false;
    std::chrono::steady_clock::time_point next_ = std::chrono::steady_clock::now() + std::chrono::milliseconds(300);
};

}  // namespace florin

#endif
