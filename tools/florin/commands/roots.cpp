#include "commands/command.h"
#include "commands/options.h"
#include "datom_text.h"

#include <cstdio>
#include <ctime>

namespace florin {

namespace {

std::string time_text(std::uint64_t seconds) {
    const std::time_t time = static_cast<std::time_t>(seconds);
    std::tm parts;
    char text[32];
    if (gmtime_r(&time, &parts) == nullptr || std::strftime(text, sizeof text, "%Y-%m-%d %H:%M:%SZ", &parts) == 0) return "?";
    return text;
}

std::string row(std::uint64_t number, const Receipt &receipt) {
    char text[256];
    const std::string name = "@" + std::to_string(number), from = page_text(receipt.from) + (receipt.went_back() ? "*" : "");
    std::snprintf(text, sizeof text, "%-6s %10s %10s %8s %8s  %-21s %s", name.c_str(), page_text(receipt.root).c_str(), from.c_str(),
                  grouped(receipt.datoms).c_str(), grouped(receipt.pages).c_str(), time_text(receipt.time).c_str(),
                  receipt.is_upgraded() ? "-" : sum_text(receipt.datoms_sum).c_str());
    return text;
}

Json object(std::uint64_t number, const Receipt &receipt) {
    const Json datoms_sum = receipt.is_upgraded() ? Json() : Json(sum_text(receipt.datoms_sum));
    return {{"receipt", number},        {"root", page_json(receipt.root)}, {"from", page_json(receipt.from)},
            {"datoms", receipt.datoms}, {"pages", receipt.pages},          {"page_count", receipt.page_count},
            {"time", receipt.time},     {"branch", receipt.went_back()},   {"datoms_sum", datoms_sum},
            {"pages_sum", sum_text(receipt.pages_sum)}, {"heap_length", receipt.heap_length}};
}

void roots(const StoreToRead &given, Output &out) {
    const auto store = given.open();
    char title[256];
    std::snprintf(title, sizeof title, "%-6s %10s %10s %8s %8s  %-21s %s", "batch", "root", "from", "datoms", "pages", "time",
                  "checksum of the datoms");
    out.text(title);
    std::uint64_t number = 0;
    bool branches = false;
    for (const Receipt &receipt : store->receipts()) {
        number += 1;
        branches = branches || receipt.went_back();
        out.tell(row(number, receipt), object(number, receipt));
    }
    if (branches) out.text("* a branch: it began at another root than the newest of its time.");
}

}  // namespace

Run define_roots(Words &words) {
    const auto given = std::make_shared<StoreToRead>();
    given->define(words);
    words.footer("The checksum is XXH64 of the batch's datoms, ascending in the order of the store, 32 bytes each: xxh64sum prints it of\n"
                 "such a file. A long value has no offset there, only the two top bits of its word, and stands behind its datom: an\n"
                 "integer in 8 bytes, a string as its length in 8 bytes, its bytes, and zeros to a multiple of 8.\n");
    return [given](Output &out) { roots(*given, out); };
}

}  // namespace florin
