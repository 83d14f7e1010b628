// The manual page, out of what the commands themselves say: no option can be missing in it, and no line of help be older than the command.
#include "commands/command.h"
#include "commands/options.h"
#include "trouble.h"

#include <cstdio>
#include <sstream>

namespace florin {

namespace {

// Text in which nothing is a request or an escape of roff.
std::string escaped(const std::string &text) {
    std::string roff;
    for (char c : text) roff += c == '\\' ? "\\e" : c == '-' ? "\\-" : std::string(1, c);
    return !roff.empty() && (roff[0] == '.' || roff[0] == '\'') ? "\\&" + roff : roff;
}

std::string bold(const std::string &text) { return "\\fB" + escaped(text) + "\\fR"; }
std::string italic(const std::string &text) { return "\\fI" + escaped(text) + "\\fR"; }

// A row of an example was aligned for a wide terminal; a page of a manual is narrower.
std::string narrowed(const std::string &line) {
    std::string text;
    for (char c : line) {
        const bool third = text.size() >= 3 && text.compare(text.size() - 3, 3, "   ") == 0;
        if (c != ' ' || !third) text += c;
    }
    return text;
}

// Paragraphs as the help has them. One with lines that are set in is an example, and stays line by line.
std::string paragraphs(const std::string &text) {
    std::istringstream lines(text);
    std::string roff, line;
    bool open = false, example = false;
    while (std::getline(lines, line)) {
        const bool set_in = !line.empty() && line[0] == ' ';
        if (example && !set_in) roff += ".fi\n.RE\n";
        if (!line.empty() && (!open || set_in != example)) roff += ".PP\n";
        if (!example && set_in) roff += ".RS 4\n.nf\n";
        open = !line.empty();
        example = set_in;
        if (open) roff += escaped(set_in ? narrowed(line.substr(2)) : line) + "\n";
    }
    return roff + (example ? ".fi\n.RE\n" : "");
}

std::string names_of(const DescribedOption &option) {
    if (option.is_word) return italic(option.names[0]);
    std::string names;
    for (const std::string &name : option.names) names += (names.empty() ? "" : ", ") + bold(name);
    return names + (option.takes_value() ? " " + italic(option.type) : "");
}

// Words first, as in the usage.
std::string rows(const DescribedCommand &command, bool with_help) {
    std::string words, options;
    for (const DescribedOption &option : command.options) {
        if (option.is_help && !with_help) continue;
        (option.is_word ? words : options) += ".TP\n" + names_of(option) + "\n" + escaped(option.help) + "\n";
    }
    return words + options;
}

// A line of usage: the words, those that may be left out in brackets.
std::string usage_of(const DescribedCommand &command) {
    std::string usage = command.name;
    bool options = false;
    for (const DescribedOption &option : command.options) {
        options = options || (!option.is_word && !option.is_help);
        if (option.is_word) usage += option.is_required ? " " + option.names[0] : " [" + option.names[0] + "]";
    }
    return usage + (options ? " [OPTIONS]" : "");
}

// What several commands tell below their options has a section of its own.
struct Shared {
    const char *title, *text, *pointer;
};
const Shared kShared[] = {{"DATOMS", kDatomsHelp, "DATOMS, below, has the form of the input.\n"},
                          {"BOUNDS", kBoundsHelp, "BOUNDS, below, has the form of a bound.\n"}};

std::string with_pointers(std::string footer) {
    for (const Shared &shared : kShared) {
        const std::size_t at = footer.find(shared.text);
        if (at != std::string::npos) footer.replace(at, std::string(shared.text).size(), shared.pointer);
    }
    return footer;
}

// A command that has no footer of its own has that of florin.
std::string section_of(const DescribedCommand &command, const DescribedCommand &florin) {
    std::string roff = ".SS florin " + escaped(usage_of(command)) + "\n" + escaped(command.line) + ".\n";
    for (const std::string &alias : command.aliases) roff += "Also " + bold("florin " + alias) + ".\n";
    return roff + rows(command, false) + (command.footer == florin.footer ? "" : paragraphs(with_pointers(command.footer)));
}

std::string page_of(const Description &all) {
    // "florin: a tree. More of it."
    const std::string what = all.florin.line.substr(all.florin.name.size() + 2);
    const std::size_t sentence = what.find(". ");
    // The footer ends with the statuses, which have a section of their own.
    const std::string statuses = statuses_text(), footer = all.florin.footer;
    std::string roff = ".TH FLORIN 1 \"\" \"florin " + escaped(FLORINWICK_VERSION) + "\" \"Florinwick\"\n";
    roff += ".SH NAME\nflorin \\- " + escaped(what.substr(0, sentence)) + "\n";
    roff += ".SH SYNOPSIS\n" + bold("florin") + " " + italic("COMMAND") + " [" + italic("WORDS") + "] [" + italic("OPTIONS") + "]\n";
    roff += ".SH DESCRIPTION\n" + paragraphs(what.substr(sentence + 2)) + paragraphs(footer.substr(0, footer.find(statuses)));
    roff += ".SH OPTIONS\n" + rows(all.florin, true);
    roff += ".SH COMMANDS\n";
    for (const DescribedCommand &command : all.commands) roff += section_of(command, all.florin);
    for (const Shared &shared : kShared) roff += std::string(".SH ") + shared.title + "\n" + paragraphs(shared.text);
    return roff + ".SH EXIT STATUS\n" + paragraphs(statuses.substr(statuses.find(": ") + 2));
}

void man(Output &out) {
    if (out.json()) throw usage_trouble("florin man has no --json");
    std::fputs(page_of(described()).c_str(), stdout);
}

}  // namespace

Run define_man(Words &words) {
    words.footer("florin man | man -l - shows it, if it is not installed.\n");
    return man;
}

}  // namespace florin
