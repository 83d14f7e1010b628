#include "checksum.h"
#include "commands/command.h"
#include "commands/options.h"
#include "datom_text.h"
#include "old_store.h"
#include "progress.h"

namespace florin {

using florinwick::ByteView;

namespace {

struct Given {
    std::string old, path;
};

// Format 1 kept no checksums of pages, so every root is walked before the pages get theirs.
void check_roots(const OldStore &old, const florinwick::Reader &reader) {
    Progress progress;
    std::uint64_t number = 0;
    for (const Receipt &receipt : old.receipts) {
        number += 1;
        progress.tell([&] { return "checking root " + grouped(number) + " of " + grouped(old.receipts.size()); });
        const florinwick::Answer answer = reader.check(receipt.root);
        if (!answer.done()) throw refusal(answer, "root " + page_text(receipt.root) + " (@" + std::to_string(number) + "). No store was made");
    }
}

std::vector<std::uint8_t> sums_of(const OldStore &old) {
    std::vector<std::uint8_t> sums(kSumBytes * old.page_count);
    for (std::uint64_t page = 0; page < old.page_count; ++page) {
        const ByteView bytes(old.pages.data() + page * old.page_size, static_cast<std::size_t>(old.page_size));
        florinwick::put_word(sums.data() + kSumBytes * page, page_checksum(page, bytes));
    }
    return sums;
}

// The receipts with their chain, whose end goes into the head.
std::vector<std::uint8_t> receipts_of(const OldStore &old, const std::vector<std::uint8_t> &sums, std::uint64_t &chain) {
    std::vector<std::uint8_t> bytes(kReceiptBytes * old.receipts.size());
    std::uint8_t *at = bytes.data();
    for (Receipt receipt : old.receipts) {
        receipt.pages_sum = checksum(sums.data() + kSumBytes * (receipt.page_count - receipt.pages), kSumBytes * receipt.pages);
        encode_receipt(receipt, chain, at);
        chain = chain_of(at);
        at += kReceiptBytes;
    }
    return bytes;
}

void upgrade(const Given &given, Output &out) {
    const OldStore old = read_old_store(given.old);
    check_roots(old, florinwick::Reader(ByteView(old.pages), old.page_size, old.page_count));
    Head head;
    head.page_size = old.page_size;
    head.page_count = old.page_count;
    head.roots[0] = old.root;
    head.receipts = old.receipts.size();
    const std::vector<std::uint8_t> sums = sums_of(old), receipts = receipts_of(old, sums, head.chain);
    write_store(given.path, head, {old.pages, sums, receipts, {}});
    out.tell("made " + given.path + " from " + given.old + ": " + counted(head.receipts, "batch") + ", " + counted(head.page_count, "page") +
                 ", root " + page_text(head.root()),
             {{"made", given.path}, {"from", given.old}, {"batches", head.receipts}, {"pages", head.page_count}, {"root", page_json(head.root())}});
}

}  // namespace

Run define_upgrade(Words &words) {
    const auto given = std::make_shared<Given>();
    words.word("OLD", given->old, "a store of florin 0.1; it stays as it is");
    words.word("NEW", given->path, "the file to make; none may stand there");
    words.footer("Pages, roots and receipts stay; every root is checked first. florin roots shows no checksum of the datoms\n"
                 "for these batches, as florin 0.1 kept none.\n");
    return [given](Output &out) { upgrade(*given, out); };
}

}  // namespace florin
