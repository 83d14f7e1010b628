#include "trouble.h"

#include "fault_words.h"
#include "order_text.h"

#include <cerrno>
#include <cstdio>
#include <cstring>
#include <iterator>

namespace florin {

using florinwick::Answer;
using florinwick::Carries;
using florinwick::Number;

Trouble system_trouble(int error, const std::string &doing, const std::string &path) {
    const std::string what = "cannot " + doing + " " + path + ": " + std::strerror(error) + ".";
    switch (error) {
        case ENOSPC:
        case EDQUOT:
        case EFBIG:
            return {kNoSpace, "NoSpace", what,
                    "make room on the disk, or raise the limit on file sizes, and try again; all that was accepted is kept."};
        case EACCES:
        case EPERM:
        case EROFS:
            return {kNotPermitted, "NotPermitted", what, "ask for the right to the file, or name another one."};
        case ENOENT:
        case EISDIR:
        case ENOTDIR:
            return {kNoInput, "NoInput", what, "look at the name of the file; florin create makes a store."};
        default:
            return {kSystem, "System", what, "look at the disk and the system's log, then run florin check."};
    }
}

Trouble usage_trouble(const std::string &what) { return {kUsage, "Usage", what + ".", ""}; }

std::string page_sizes_text() {
    std::string text;
    for (const std::uint64_t &size : florinwick::page_sizes) {
        const bool is_first = &size == std::begin(florinwick::page_sizes), is_last = &size + 1 == std::end(florinwick::page_sizes);
        text += (is_first ? "" : is_last ? " or " : ", ") + std::to_string(size);
    }
    return text;
}

std::string page_text(std::uint64_t page) {
    return page == florinwick::none ? "none" : std::to_string(page);
}

namespace {

struct Words {
    std::string what;
    std::string next;
};

Words words_of(Number number, florinwick::Order order) {
    switch (number) {
        case Number::BadStore:
            return {"The page size is not " + page_sizes_text() + ", or the pages do not fit into the store.", "choose one of these page sizes."};
        case Number::TooMany:
            return {"A batch has at most 128 datoms. Nothing was written.", "cut it into batches: a line --- after each, or --every 128."};
        case Number::BadDatom:
            return {"Its value is max, or a raw word that is no value. Nothing was written.", "correct that datom and send the batch again."};
        case Number::BadConstant:
            return {"Its value names a place on the heap of this store where no such value lies. Nothing was written.",
                    "write long values as text: raw words and binary batches name those that lie in this very store."};
        case Number::HeapFull:
            return {"A long value does not fit into the file. Root and pages are as they were.", "leave out --no-grow, so that the file may grow."};
        case Number::OutOfOrder:
            return {"The datoms of a batch rise: by " + order_text(order) + ". Nothing was written.",
                    "put that datom in its place, or take it out if it stands there twice, and send the batch again; --sort sorts each batch."};
        case Number::NoPage:
            return {"The store has no such page.", "take a root from florin roots."};
        case Number::Repeated:
            return {"The tree holds it already. Nothing of the batch was written.",
                    "send what florin missing prints: the part of the input that the tree does not hold."};
        case Number::Damaged:
            return {"Root and pages are as they were.",
                    "run florin check; older roots that do not reach the page can still be listed. Restore the file from a backup."};
        case Number::TooTall:
            return {"The tree would get more than 8 levels. Root and pages are as they were.",
                    "create a store with larger pages and insert the listing of this one into it."};
        case Number::NoRoom:
            return {"The next page does not fit into the file. Root and pages are as they were.", "leave out --no-grow, so that the file may grow."};
        case Number::BadBound:
            return {"The value of a bound is a raw word that is no value in this store.", "correct --from or --to."};
        case Number::Unsound:
            return {"It is the first page with a fault that the check met.",
                    "restore the file from a backup; florin check --all says which roots are sound."};
        default:
            return {"This answer is not known.", "build florin anew with the library that it is linked to."};
    }
}

std::string carried(const Answer &answer) {
    switch (answer.carries()) {
        case Carries::Index: return ", datom " + std::to_string(answer.detail);
        case Carries::Page: return ", page " + page_text(answer.detail);
        case Carries::Nothing: break;
    }
    return "";
}

Json carried_json(const Answer &answer) {
    Json json;
    switch (answer.carries()) {
        case Carries::Index: json.put("datom", answer.detail); break;
        case Carries::Page: json.put("page", page_json(answer.detail)); break;
        case Carries::Nothing: break;
    }
    if (answer.fault) json.put("fault", fault_json(*answer.fault));
    return json;
}

}  // namespace

Trouble refusal(const Answer &answer, const std::string &place) { return refusal(answer, place, florinwick::Order::Eavt); }

Trouble refusal(const Answer &answer, const std::string &place, florinwick::Order order) {
    const Words words = words_of(answer.number, order);
    const std::string where = carried(answer) + (place.empty() ? "" : ", " + place);
    const std::string begin = where.empty() ? "" : where.substr(2) + ".\n  ";
    Trouble trouble{static_cast<int>(answer.number), answer.name(), begin + words.what, words.next, carried_json(answer), answer.fault};
    if (answer.fault) {
        // What to do about a page depends on its fault.
        trouble.what = begin + "The fault is " + fault_text(*answer.fault) + ". " + words.what;
        trouble.next = fault_words(*answer.fault).advice;
    }
    return trouble;
}

std::string statuses_text() {
    return "Exit status: 0 done. The library's numbers: BadStore 1, TooMany 2, BadDatom 3, OutOfOrder 4,\n"
           "NoPage 5, Repeated 6, Damaged 7, TooTall 8, NoRoom 9, BadBound 10, BadConstant 11, HeapFull 12,\n"
           "Unsound 33. Of florin: Usage 64, BadText 65, NoInput 66, NotAStore 67, BadHead 68, CutShort 69,\n"
           "Exists 70, NoSpace 71, NotPermitted 72, Busy 73, System 74, Altered 75, OtherFormat 76, NotClosed 77,\n"
           "NotARoot 78.\n";
}

namespace {

// A message of several lines is one line in JSON.
std::string joined(const std::string &lines) {
    std::string text;
    for (char c : lines) {
        if (c != '\n') {
            text += c;
        } else {
            while (!text.empty() && text.back() == ' ') text.pop_back();
        }
    }
    for (std::size_t at = 0; (at = text.find("  ", at)) != std::string::npos;) text.erase(at, 1);
    return text;
}

void print_json(const Trouble &trouble) {
    Json object = {{"error", trouble.name}, {"status", trouble.status}};
    object.put_all(trouble.more);
    object.put("message", joined(trouble.what));
    if (!trouble.next.empty()) object.put("next", trouble.next);
    const std::string line = object.text() + "\n";
    std::fwrite(line.data(), 1, line.size(), stderr);
}

}  // namespace

void print(const Trouble &trouble, bool json) {
    std::fflush(stdout);
    if (json) return print_json(trouble);
    std::fprintf(stderr, "florin: %s (%d): %s\n", trouble.name.c_str(), trouble.status, trouble.what.c_str());
    if (!trouble.next.empty()) std::fprintf(stderr, "  next: %s\n", trouble.next.c_str());
}

}  // namespace florin
