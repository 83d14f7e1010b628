// Files as florin needs them: whole reads and writes, blocks reserved ahead, and new files that get their name when they are whole.
#ifndef FLORIN_FILES_H
#define FLORIN_FILES_H

#include "store_format.h"

#include <string>
#include <vector>

namespace florin {

// As many bytes as the file has there, up to the length.
std::size_t read_some(int file, std::uint8_t *bytes, std::size_t length, const std::string &path);
void write_whole(int file, const std::uint8_t *bytes, std::size_t length, std::uint64_t at, const std::string &path);

// Blocks for all of the file up to this length. Gives the error, or 0.
int reserve(int file, std::uint64_t length);

// Of a regular file, else Trouble.
std::uint64_t size_of(int file, const std::string &path);

// On Linux this brings what was written through a shared map to the disk too, and the file's length.
void sync(int file, const std::string &path);

bool stands(const std::string &path);
// A store of any format, as far as its first bytes tell.
bool is_store(const std::string &path);

// A file that gets its name when all of it is on the disk. Until then it has a temporary one, and goes away with this value.
class NewFile {
public:
    // Exists if a file stands at `path`.
    explicit NewFile(const std::string &path);
    // One that may take the place of a file which is no store.
    static NewFile over(const std::string &path);
    ~NewFile();
    NewFile(NewFile &&other) noexcept;
    NewFile(const NewFile &) = delete;

    int file() const { return file_; }
    void keep();

private:
    NewFile(const std::string &path, bool may_replace);

    std::string path_, temporary_;
    bool may_replace_;
    int file_ = -1;
};

// The extents of one kind, mapped one behind the other: pages are one slice to the library wherever in the file they lie.
class Mapping {
public:
    Mapping() = default;
    ~Mapping() { unmap(); }
    Mapping(const Mapping &) = delete;
    Mapping &operator=(const Mapping &) = delete;

    void map(int file, const std::vector<Extent> &extents, Kind kind, bool may_write, const std::string &path);
    // To be written to in memory alone, with so many bytes of memory behind the extents. Nothing of it comes into the file.
    void map_aside(int file, const std::vector<Extent> &extents, Kind kind, std::uint64_t room, const std::string &path);
    std::uint8_t *data() const { return data_; }
    std::uint64_t size() const { return size_; }

private:
    void reserve(std::uint64_t size, int protection, const std::string &path);
    void map_extents(int file, const std::vector<Extent> &extents, Kind kind, int protection, int sharing, const std::string &path);
    void unmap();

    std::uint8_t *data_ = nullptr;
    std::uint64_t size_ = 0;
};

}  // namespace florin

#endif
