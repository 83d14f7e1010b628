#include "commands/command.h"
#include "commands/options.h"
#include "datom_text.h"
#include "draw.h"

#include <cerrno>
#include <cstdio>

#include <sys/stat.h>

namespace florin {

namespace {

struct Given {
    StoreToRead store;
    RootOption root;
    std::uint64_t levels = FLORINWICK_LEVELS;
    std::string svg;
    bool force = false;
};

std::string base_name(const std::string &path) { return path.substr(path.rfind('/') + 1).substr(0, 80); }

// A pipe, a terminal, /dev/null: nothing stands there that could be lost.
bool is_special(const std::string &path) {
    struct stat status;
    return stat(path.c_str(), &status) == 0 && !S_ISREG(status.st_mode) && !S_ISDIR(status.st_mode);
}

void write_special(const std::string &picture, const std::string &path) {
    std::FILE *out = std::fopen(path.c_str(), "wb");
    if (out == nullptr) throw system_trouble(errno, "write", path);
    std::fwrite(picture.data(), 1, picture.size(), out);
    const bool lost = std::fflush(out) != 0;
    const int error = errno;
    std::fclose(out);
    if (lost) throw system_trouble(error, "write to", path);
}

// Never over a store; over another file only where that is said.
void write_picture(const std::string &picture, const Given &given) {
    if (is_special(given.svg)) return write_special(picture, given.svg);
    NewFile file = given.force ? NewFile::over(given.svg) : NewFile(given.svg);
    write_whole(file.file(), reinterpret_cast<const std::uint8_t *>(picture.data()), picture.size(), 0, given.svg);
    file.keep();
}

void tree(const Given &given, Output &out) {
    if (out.json()) throw usage_trouble("florin tree has no --json");
    const auto store = given.store.open();
    const std::uint64_t root = given.root.of(*store);
    const florinwick::Reader reader = store->reader();
    if (root != florinwick::none) {
        const florinwick::Answer answer = reader.refusal(root);
        if (!answer.done()) throw refusal(answer, "root " + page_text(root) + " of " + counted(reader.page_count(), "page"));
    }
    const Subject subject{reader, base_name(store->path()), root, static_cast<unsigned>(given.levels), store->receipts()};
    if (given.svg.empty()) {
        draw_text(stdout, subject);
    } else if (given.svg == "-") {
        std::fputs(draw_svg(subject).c_str(), stdout);
    } else {
        write_picture(draw_svg(subject), given);
        out.text("drew " + given.svg);
    }
}

}  // namespace

Run define_tree(Words &words) {
    const auto given = std::make_shared<Given>();
    given->store.define_with_salvage(words);
    given->root.define(words, "of this root; the newest if not given");
    words.number("--levels", given->levels, "N", "so many levels from the root's on", 1, FLORINWICK_LEVELS);
    words.text("--svg", given->svg, "FILE", "draw an SVG picture into FILE; - is the standard output");
    words.flag("--force", given->force, "FILE may stand there already; a store is never written over");
    return [given](Output &out) { tree(*given, out); };
}

}  // namespace florin
