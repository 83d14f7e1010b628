// Memory to lend. A touch of the pages on both sides of it ends the program; so does a write to what is lent for reading.
#pragma once

#include <cstdint>
#include <cstdio>
#include <cstdlib>
#include <cstring>
#include <vector>

#include <sys/mman.h>
#include <unistd.h>

constexpr size_t GUARD = 4096;

// What lies between a slice and the end of its memory that it does not touch, and how much of that is looked at.
constexpr uint8_t SLACK = 0xa5;
constexpr size_t SLACK_SEEN = 256;

inline void must(bool holds, const char *what) {
    if (!holds) {
        fprintf(stderr, "NOT ALLOWED: %s\n", what);
        abort();
    }
}

// Which end of its memory a slice touches: a guard page is right before it, or right behind it.
enum class End { Front, Back };

// One lent slice.
class Lent {
public:
    Lent(size_t room, End end) : room_((room + GUARD - 1) / GUARD * GUARD), end_(end) {
        int file = memfd_create("lent", 0);
        must(file >= 0 && ftruncate(file, static_cast<off_t>(room_)) == 0, "no memory to lend");
        written_ = between_guards(file, PROT_READ | PROT_WRITE);
        read_ = between_guards(file, PROT_READ);
        close(file);
    }

    // Lays out a slice of this length. Its bytes stay as they are.
    void lay(size_t length) {
        must(length <= room_, "a slice that is too long for the harness");
        length_ = length;
        memset(slack(), SLACK, slack_length());
    }

    void lay(const uint8_t *content, size_t length) {
        lay(length);
        if (length > 0) {
            memcpy(bytes(), content, length);
        }
    }

    size_t length() const { return length_; }
    uint8_t *bytes() const { return written_ + start(); }
    const uint8_t *for_reading() const { return read_ + start(); }

    void must_be_whole() const {
        static const std::vector<uint8_t> expected(SLACK_SEEN, SLACK);
        must(memcmp(slack(), expected.data(), slack_length()) == 0, "a byte beside a lent slice was changed");
    }

private:
    size_t room_;
    End end_;
    size_t length_ = 0;
    uint8_t *written_;
    const uint8_t *read_;

    size_t start() const { return end_ == End::Front ? 0 : room_ - length_; }
    size_t slack_length() const { return room_ - length_ < SLACK_SEEN ? room_ - length_ : SLACK_SEEN; }
    uint8_t *slack() const { return end_ == End::Front ? bytes() + length_ : bytes() - slack_length(); }

    uint8_t *between_guards(int file, int protection) const {
        void *all = mmap(nullptr, room_ + 2 * GUARD, PROT_NONE, MAP_PRIVATE | MAP_ANONYMOUS | MAP_NORESERVE, -1, 0);
        must(all != MAP_FAILED, "no address space");
        void *inner = mmap(static_cast<uint8_t *>(all) + GUARD, room_, protection, MAP_SHARED | MAP_FIXED, file, 0);
        must(inner != MAP_FAILED, "no memory to lend");
        return static_cast<uint8_t *>(inner);
    }
};
