// Preloaded into florin, this watches the calls to the system that a store rests on.
//
//   FLORIN_KILL_AT=N     kills the process before its N-th such call
//   FLORIN_CUT_INTO=DIR  at each sync writes into DIR what a cut of the power just before its end may leave on the disk: what was synced,
//                        and of all sectors written since any part. The name of each ends in how many batches had been told to be in
//
// The disk is taken at its worst: fsync and fdatasync bring the whole file and its length there, and what was written through a map with
// it; nothing else is there for certain.
#include <algorithm>
#include <cstdint>
#include <cstdio>
#include <cstdlib>
#include <cstring>
#include <random>
#include <string>
#include <vector>

#include <dlfcn.h>
#include <fcntl.h>
#include <signal.h>
#include <sys/mman.h>
#include <sys/stat.h>
#include <unistd.h>

namespace {

using Bytes = std::vector<std::uint8_t>;
const std::size_t kSector = 512;

Bytes synced;                        // what is on the disk for certain
int store = -1;                      // the file, once it is mapped to be written
unsigned long calls = 0, images = 0;

template <class Function>
Function next(const char *name) { return reinterpret_cast<Function>(dlsym(RTLD_NEXT, name)); }

void counted() {
    static const char *at = std::getenv("FLORIN_KILL_AT");
    if (at != nullptr && ++calls == std::strtoul(at, nullptr, 10)) kill(getpid(), SIGKILL);
}

Bytes read_file(const char *path) {
    Bytes bytes;
    const int file = open(path, O_RDONLY);
    struct stat status;
    if (file < 0 || fstat(file, &status) != 0 || !S_ISREG(status.st_mode)) return bytes;
    bytes.resize(static_cast<std::size_t>(status.st_size));
    std::size_t got = 0;
    ssize_t more;
    while (got < bytes.size() && (more = read(file, bytes.data() + got, bytes.size() - got)) > 0) got += static_cast<std::size_t>(more);
    close(file);
    return bytes;
}

Bytes written() { return read_file(("/proc/self/fd/" + std::to_string(store)).c_str()); }

std::size_t told() {
    const Bytes output = read_file("/proc/self/fd/1");
    const std::string text(output.begin(), output.end());
    std::size_t batches = 0;
    for (std::size_t at = 0; (at = text.find(" is in:", at)) != std::string::npos; ++at) ++batches;
    return batches;
}

// A sector is on the disk or not; the file is as long as before or as now.
Bytes image_of(const Bytes &now, int kind, std::mt19937 &random) {
    static const unsigned chances[] = {0, 100, 50, 10, 90, 50};
    const unsigned chance = chances[kind];
    Bytes image = synced;
    if (kind == 1 || (kind > 1 && random() % 2 == 0)) image.resize(std::max(now.size(), image.size()));
    for (std::size_t at = 0; at < std::min(now.size(), image.size()); at += kSector) {
        const std::size_t length = std::min({kSector, now.size() - at, image.size() - at});
        if (random() % 100 < chance) std::memcpy(image.data() + at, now.data() + at, length);
    }
    return image;
}

void cut() {
    static const char *into = std::getenv("FLORIN_CUT_INTO");
    static std::mt19937 random(20261115);
    if (into == nullptr || store < 0) return;
    const Bytes now = written();
    for (int kind = 0; kind < 6; ++kind) {
        const Bytes image = image_of(now, kind, random);
        char name[512];
        std::snprintf(name, sizeof name, "%s/%06lu.%zu", into, images++, told());
        std::FILE *file = std::fopen(name, "wb");
        if (file == nullptr || std::fwrite(image.data(), 1, image.size(), file) != image.size()) std::abort();
        std::fclose(file);
    }
}

}  // namespace

extern "C" {

void *mmap(void *address, size_t length, int protection, int flags, int file, off_t offset) {
    void *at = next<void *(*)(void *, size_t, int, int, int, off_t)>("mmap")(address, length, protection, flags, file, offset);
    if (file >= 0 && (flags & MAP_SHARED) && (protection & PROT_WRITE)) {
        counted();
        if (store < 0) {
            store = file;
            synced = written();
        }
    }
    return at;
}

static int whole(const char *name, int file) {
    counted();
    cut();
    const int failed = next<int (*)(int)>(name)(file);
    if (file == store) synced = written();
    return failed;
}
int fsync(int file) { return whole("fsync", file); }
int fdatasync(int file) { return whole("fdatasync", file); }

ssize_t pwrite(int file, const void *bytes, size_t length, off_t at) {
    counted();
    // A write may be cut in its middle too.
    const auto real = next<ssize_t (*)(int, const void *, size_t, off_t)>("pwrite");
    if (length > 36) {
        const ssize_t part = real(file, bytes, 36, at);
        if (part != 36) return part;
        counted();
    }
    return real(file, bytes, length, at);
}

int posix_fallocate(int file, off_t at, off_t length) {
    counted();
    return next<int (*)(int, off_t, off_t)>("posix_fallocate")(file, at, length);
}

int link(const char *from, const char *to) {
    counted();
    return next<int (*)(const char *, const char *)>("link")(from, to);
}

int unlink(const char *path) {
    counted();
    return next<int (*)(const char *)>("unlink")(path);
}

}
