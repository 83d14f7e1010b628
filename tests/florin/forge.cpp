// Writes what florin would not:
//   forge FILE SLOT WORD=NUMBER..       changes words of a head and makes its checksum right
//   forge FILE sum PAGE SIZE AT SUM_AT  makes the checksum of a page right, which lies at byte AT, at byte SUM_AT
// It knows the form from tools/florin/store_format.h, and takes none of its code.
#include <cstdint>
#include <cstdio>
#include <cstdlib>
#include <cstring>
#include <string>

#include <xxhash.h>

// Which of a slot's words has this name; offset0 and length0 are of the first extent.
static long word_of(const std::string &name) {
    const char *names[] = {"mark",       "sequence",   "page_size", "page_count", "heap_length", "order", "parties",
                           "allowance0", "allowance1", "root0",     "root1",      "receipts",    "chain", "extents"};
    for (long i = 0; i < 14; ++i) {
        if (name == names[i]) return i;
    }
    if (name.compare(0, 6, "offset") == 0) return 16 + 2 * std::atol(name.c_str() + 6);
    if (name.compare(0, 6, "length") == 0) return 17 + 2 * std::atol(name.c_str() + 6);
    return -1;
}

static int forge_sum(std::FILE *file, char **words) {
    unsigned char page[4096];
    const std::size_t size = std::strtoul(words[1], nullptr, 0);
    if (size > sizeof page || std::fseek(file, std::atol(words[2]), SEEK_SET) != 0 || std::fread(page, 1, size, file) != size) return 1;
    const std::uint64_t sum = XXH64(page, size, std::strtoull(words[0], nullptr, 0));
    return std::fseek(file, std::atol(words[3]), SEEK_SET) == 0 && std::fwrite(&sum, 1, 8, file) == 8 && std::fclose(file) == 0 ? 0 : 1;
}

int main(int count, char **words) {
    if (count < 3) return 2;
    std::FILE *file = std::fopen(words[1], "r+b");
    if (file != nullptr && count == 7 && std::strcmp(words[2], "sum") == 0) return forge_sum(file, words + 3);
    const long at = 4096 * std::atol(words[2]);
    unsigned char head[4096];
    if (file == nullptr || std::fseek(file, at, SEEK_SET) != 0 || std::fread(head, 1, sizeof head, file) != sizeof head) return 1;
    for (int i = 3; i < count; ++i) {
        char *equals = std::strchr(words[i], '=');
        if (equals == nullptr || word_of({words[i], equals}) < 0) return 2;
        const std::uint64_t number = std::strtoull(equals + 1, nullptr, 0);
        std::memcpy(head + 8 * word_of({words[i], equals}), &number, 8);
    }
    const std::uint64_t sum = XXH64(head, 4088, 0);
    std::memcpy(head + 4088, &sum, 8);
    return std::fseek(file, at, SEEK_SET) == 0 && std::fwrite(head, 1, sizeof head, file) == sizeof head && std::fclose(file) == 0 ? 0 : 1;
}
