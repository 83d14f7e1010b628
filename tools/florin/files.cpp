#include "files.h"

#include "trouble.h"

#include <cerrno>
#include <cstdlib>
#include <utility>

#include <fcntl.h>
#include <sys/mman.h>
#include <sys/stat.h>
#include <unistd.h>

namespace florin {

std::size_t read_some(int file, std::uint8_t *bytes, std::size_t length, const std::string &path) {
    std::size_t got = 0;
    while (got < length) {
        const ssize_t more = pread(file, bytes + got, length - got, static_cast<off_t>(got));
        if (more < 0 && errno == EINTR) continue;
        if (more < 0) throw system_trouble(errno, "read", path);
        if (more == 0) break;
        got += static_cast<std::size_t>(more);
    }
    return got;
}

void write_whole(int file, const std::uint8_t *bytes, std::size_t length, std::uint64_t at, const std::string &path) {
    while (length > 0) {
        const ssize_t written = pwrite(file, bytes, length, static_cast<off_t>(at));
        if (written < 0 && errno == EINTR) continue;
        if (written < 0) throw system_trouble(errno, "write", path);
        bytes += written;
        length -= static_cast<std::size_t>(written);
        at += static_cast<std::uint64_t>(written);
    }
}

// posix_fallocate gives the error instead of setting errno.
int reserve(int file, std::uint64_t length) {
    int error;
    do error = posix_fallocate(file, 0, static_cast<off_t>(length));
    while (error == EINTR);
    return error;
}

std::uint64_t size_of(int file, const std::string &path) {
    struct stat status;
    if (fstat(file, &status) != 0) throw system_trouble(errno, "look at", path);
    if (!S_ISREG(status.st_mode)) {
        throw Trouble{kNotAStore, "NotAStore", path + " is no regular file.", "name a file that florin create has made."};
    }
    return static_cast<std::uint64_t>(status.st_size);
}

void sync(int file, const std::string &path) {
    if (fdatasync(file) != 0) throw system_trouble(errno, "sync", path);
}

bool stands(const std::string &path) {
    struct stat status;
    return lstat(path.c_str(), &status) == 0;
}

bool is_store(const std::string &path) {
    const int file = open(path.c_str(), O_RDONLY | O_CLOEXEC | O_NONBLOCK);
    if (file < 0) return false;
    std::uint8_t bytes[kSlotBytes + 8];
    std::size_t got = 0;
    ssize_t more;
    while (got < sizeof bytes && (more = pread(file, bytes + got, sizeof bytes - got, static_cast<off_t>(got))) > 0) {
        got += static_cast<std::size_t>(more);
    }
    close(file);
    const auto marked = [&](std::size_t at) { return got >= at + 8 && (has_mark(bytes + at, kMark) || has_mark(bytes + at, kMarkOfOne)); };
    return marked(0) || marked(kSlotBytes);
}

namespace {

Trouble exists(const std::string &path) {
    return {kExists, "Exists", path + " stands there already. It was left as it is.", "name another file, or move that one away."};
}

// A new name lasts only once its directory is on the disk.
void sync_directory_of(const std::string &path) {
    const std::size_t slash = path.rfind('/');
    const std::string directory = slash == std::string::npos ? "." : slash == 0 ? "/" : path.substr(0, slash);
    const int file = open(directory.c_str(), O_RDONLY | O_DIRECTORY | O_CLOEXEC);
    if (file < 0) throw system_trouble(errno, "open", directory);
    const int failed = fsync(file) != 0 ? errno : 0;
    close(file);
    if (failed != 0 && failed != EINVAL) throw system_trouble(failed, "sync", directory);
}

mode_t usual_mode() {
    const mode_t mask = umask(0);
    umask(mask);
    return 0666 & ~mask;
}

}  // namespace

NewFile::NewFile(const std::string &path) : NewFile(path, false) {}

NewFile NewFile::over(const std::string &path) { return NewFile(path, true); }

NewFile::NewFile(const std::string &path, bool may_replace) : path_(path), temporary_(path + ".XXXXXX"), may_replace_(may_replace) {
    if (stands(path) && (!may_replace || is_store(path))) throw exists(path);
    file_ = mkostemp(temporary_.data(), O_CLOEXEC);
    if (file_ < 0) throw system_trouble(errno, "create", path);
}

NewFile::NewFile(NewFile &&other) noexcept
    : path_(std::move(other.path_)), temporary_(std::exchange(other.temporary_, "")), may_replace_(other.may_replace_),
      file_(std::exchange(other.file_, -1)) {}

NewFile::~NewFile() {
    if (file_ >= 0) close(file_);
    if (!temporary_.empty()) unlink(temporary_.c_str());
}

void NewFile::keep() {
    if (fchmod(file_, usual_mode()) != 0 || fsync(file_) != 0) throw system_trouble(errno, "create", path_);
    if (may_replace_ && stands(path_)) {
        // A store that was put there meanwhile is not written over.
        if (is_store(path_)) throw exists(path_);
        if (rename(temporary_.c_str(), path_.c_str()) != 0) throw system_trouble(errno, "write", path_);
        temporary_.clear();
    } else if (link(temporary_.c_str(), path_.c_str()) != 0) {
        throw errno == EEXIST ? exists(path_) : system_trouble(errno, "create", path_);
    }
    sync_directory_of(path_);
}

namespace {

std::uint64_t bytes_of(const std::vector<Extent> &extents, Kind kind) {
    std::uint64_t size = 0;
    for (const Extent &extent : extents) size += extent.kind == kind ? extent.length : 0;
    return size;
}

}  // namespace

void Mapping::map(int file, const std::vector<Extent> &extents, Kind kind, bool may_write, const std::string &path) {
    unmap();
    reserve(bytes_of(extents, kind), PROT_NONE, path);
    map_extents(file, extents, kind, may_write ? PROT_READ | PROT_WRITE : PROT_READ, MAP_SHARED, path);
}

void Mapping::map_aside(int file, const std::vector<Extent> &extents, Kind kind, std::uint64_t room, const std::string &path) {
    unmap();
    reserve(bytes_of(extents, kind) + room, PROT_READ | PROT_WRITE, path);
    map_extents(file, extents, kind, PROT_READ | PROT_WRITE, MAP_PRIVATE, path);
}

// The place for all extents is taken first, so that each can be put where the one before ends.
void Mapping::reserve(std::uint64_t size, int protection, const std::string &path) {
    if (size == 0) return;
    void *const place = mmap(nullptr, size, protection, MAP_PRIVATE | MAP_ANONYMOUS | MAP_NORESERVE, -1, 0);
    if (place == MAP_FAILED) throw system_trouble(errno, "map", path);
    data_ = static_cast<std::uint8_t *>(place);
    size_ = size;
}

void Mapping::map_extents(int file, const std::vector<Extent> &extents, Kind kind, int protection, int sharing, const std::string &path) {
    std::uint64_t at = 0;
    for (const Extent &extent : extents) {
        if (extent.kind != kind) continue;
        void *const mapped = mmap(data_ + at, extent.length, protection, sharing | MAP_FIXED, file, static_cast<off_t>(extent.offset));
        if (mapped == MAP_FAILED) throw system_trouble(errno, "map", path);
        at += extent.length;
    }
}

void Mapping::unmap() {
    if (data_ != nullptr) munmap(data_, size_);
    data_ = nullptr;
    size_ = 0;
}

}  // namespace florin
