#include "old_store.h"

#include "files.h"
#include "trouble.h"

#include <cerrno>
#include <optional>

#include <fcntl.h>
#include <sys/file.h>
#include <unistd.h>

namespace florin {

using florinwick::get_word;

namespace {

const std::uint64_t kPagesAt = kHeadsBytes;
const std::uint64_t kOldHeadBytes = 72;
const std::uint64_t kOldReceiptBytes = 64;
const std::uint64_t kSumStart = 0xcbf29ce484222325u;

std::uint64_t old_checksum(const std::uint8_t *bytes, std::size_t length) {
    std::uint64_t sum = kSumStart;
    for (std::size_t i = 0; i < length; ++i) sum = (sum ^ bytes[i]) * 0x100000001b3u;
    return sum;
}

struct OldHead {
    std::uint64_t sequence, page_size, page_count, root, end, receipts, chain;
};

std::optional<OldHead> decode(const std::uint8_t *slot) {
    if (!has_mark(slot, kMarkOfOne) || get_word(slot + kOldHeadBytes - 8) != old_checksum(slot, kOldHeadBytes - 8)) return std::nullopt;
    return OldHead{get_word(slot + 8),  get_word(slot + 16), get_word(slot + 24), get_word(slot + 32),
                   get_word(slot + 40), get_word(slot + 48), get_word(slot + 56)};
}

Trouble damaged(const std::string &path, const std::string &why) {
    return {kBadHead, "BadHead", path + ", a store of format 1, is damaged: " + why + ". It was left as it is.", "restore the file from a copy."};
}

// Closes the file, whatever happens.
struct Opened {
    int file;
    ~Opened() { close(file); }
};

std::vector<std::uint8_t> read_file(const std::string &path) {
    const Opened opened{open(path.c_str(), O_RDONLY | O_CLOEXEC | O_NONBLOCK)};
    if (opened.file < 0) throw system_trouble(errno, "open", path);
    std::vector<std::uint8_t> bytes(size_of(opened.file, path));
    // A florin 0.1 that writes holds the lock for itself.
    if (flock(opened.file, LOCK_SH | LOCK_NB) != 0) {
        throw Trouble{kBusy, "Busy", "another process writes to " + path + ". No store was made.", "try again when it has ended."};
    }
    bytes.resize(read_some(opened.file, bytes.data(), bytes.size(), path));
    return bytes;
}

OldHead newest_head(const std::vector<std::uint8_t> &bytes, const std::string &path) {
    const auto marked = [&](std::size_t at) { return bytes.size() >= at + 8 && has_mark(bytes.data() + at, kMarkOfOne); };
    if (!marked(0) && !marked(kSlotBytes)) {
        throw Trouble{kNotAStore, "NotAStore", path + " is no store of format 1.", "florin upgrade takes a store that florin 0.1 has made."};
    }
    if (bytes.size() < kHeadsBytes) throw damaged(path, "it ends within its head");
    const auto first = decode(bytes.data()), second = decode(bytes.data() + kSlotBytes);
    if (!first && !second) throw damaged(path, "neither of its two slots is valid");
    return !second || (first && first->sequence > second->sequence) ? *first : *second;
}

void test_head(const OldHead &head, std::uint64_t size, const std::string &path) {
    if (florinwick_scratch_need(head.page_size) == 0) throw damaged(path, "its page size is " + std::to_string(head.page_size));
    if (head.end > size) throw damaged(path, "it is shorter than its head says");
    if (head.end < kPagesAt || head.receipts > (head.end - kPagesAt) / kOldReceiptBytes) {
        throw damaged(path, "it counts more receipts than the file holds");
    }
    if (head.page_count > (head.end - kPagesAt - kOldReceiptBytes * head.receipts) / head.page_size) {
        throw damaged(path, "it counts more pages than the file holds");
    }
}

std::vector<Receipt> receipts_of(const OldHead &head, const std::vector<std::uint8_t> &bytes, const std::string &path) {
    std::vector<Receipt> receipts;
    std::uint64_t chain = kSumStart;
    for (std::uint64_t i = 1; i <= head.receipts; ++i) {
        const std::uint8_t *at = bytes.data() + head.end - kOldReceiptBytes * i;
        if (get_word(at + 48) != chain || get_word(at + 56) != old_checksum(at, 56)) throw damaged(path, "its list of roots");
        chain = get_word(at + 56);
        Receipt receipt;
        receipt.from = get_word(at);
        receipt.root = get_word(at + 8);
        receipt.pages = get_word(at + 16);
        receipt.page_count = get_word(at + 24);
        receipt.datoms = get_word(at + 32);
        receipt.time = get_word(at + 40);
        receipt.flags = Receipt::kUpgraded;
        const Receipt before = receipts.empty() ? Receipt{} : receipts.back();
        if (!may_follow(receipt, before)) throw damaged(path, "its list of roots");
        if (receipt.from != before.root) receipt.flags |= Receipt::kBack;
        receipts.push_back(receipt);
    }
    const Receipt last = receipts.empty() ? Receipt{} : receipts.back();
    if (chain != head.chain || last.root != head.root || last.page_count != head.page_count) throw damaged(path, "its list of roots");
    return receipts;
}

}  // namespace

OldStore read_old_store(const std::string &path) {
    const std::vector<std::uint8_t> bytes = read_file(path);
    const OldHead head = newest_head(bytes, path);
    test_head(head, bytes.size(), path);
    OldStore store;
    store.page_size = head.page_size;
    store.page_count = head.page_count;
    store.root = head.root;
    store.pages.assign(bytes.begin() + kPagesAt, bytes.begin() + static_cast<std::ptrdiff_t>(kPagesAt + head.page_count * head.page_size));
    store.receipts = receipts_of(head, bytes, path);
    return store;
}

}  // namespace florin
