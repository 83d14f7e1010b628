#include "command_line.h"

#include "commands/command.h"
#include "trouble.h"

#include <CLI/CLI.hpp>

#include <cstdio>

namespace florin {

namespace {

// What a value may be is told by `help`, and a wrong one by the message of the trouble.
CLI::Validator within(double least, double most) { return CLI::Range(least, most).description(""); }
CLI::Validator within(std::uint64_t least, std::uint64_t most) { return CLI::Range(least, most).description(""); }

}  // namespace

void Words::word(const std::string &name, std::string &value, const std::string &help) {
    app_.add_option(name, value, help)->type_name("")->required();
}

void Words::word_or_not(const std::string &name, std::string &value, const std::string &help) {
    app_.add_option(name, value, help)->type_name("");
}

void Words::choice(const std::string &name, std::string &value, const std::vector<std::string> &choices, const std::string &help) {
    app_.add_option(name, value, help)->type_name("")->required()->check(CLI::IsMember(choices));
}

void Words::flag(const std::string &name, bool &value, const std::string &help) { app_.add_flag(name, value, help); }

void Words::text(const std::string &name, std::string &value, const std::string &type, const std::string &help) {
    app_.add_option(name, value, help)->type_name(type);
}

void Words::text(const std::string &name, std::optional<std::string> &value, const std::string &type, const std::string &help) {
    app_.add_option(name, value, help)->type_name(type);
}

void Words::number(const std::string &name, std::optional<std::uint64_t> &value, const std::string &type, const std::string &help) {
    app_.add_option(name, value, help)->type_name(type);
}

void Words::number(const std::string &name, std::uint64_t &value, const std::string &type, const std::string &help, std::uint64_t least,
                   std::uint64_t most) {
    CLI::Option *option = app_.add_option(name, value, help)->type_name(type);
    if (least > 0 || most < UINT64_MAX) option->check(within(least, most));
}

void Words::seconds(const std::string &name, double &value, const std::string &help) {
    app_.add_option(name, value, help)->type_name("SECONDS")->check(within(0.0, 1e9));
}

void Words::one_of(const std::string &name, std::string &value, const std::string &type, const std::vector<std::string> &choices,
                   const std::string &help) {
    app_.add_option(name, value, help)->type_name(type)->check(CLI::IsMember(choices).description(""));
}

void Words::footer(const std::string &text) { app_.footer(text); }

namespace {

void set_labels(CLI::App &app) {
    const auto formatter = std::make_shared<CLI::Formatter>();
    formatter->column_width(28);
    formatter->label("REQUIRED", "");
    formatter->label("SUBCOMMAND", "COMMAND ..");
    formatter->label("Positionals", "Words");
    app.formatter(formatter);
}

// florin with every command; `chosen` is what is to be run once the words are parsed.
void define(CLI::App &app, bool &json, Run &chosen) {
    set_labels(app);
    app.description("florin: an append-only tree for trade fills, in a file. A batch goes in whole or not at all,\n"
                    "and no repeat passes in silence.\n");
    app.set_help_flag("-h,--help", "shows what can be said");
    app.set_version_flag("--version", std::string("florin ") + FLORINWICK_VERSION, "shows which florin this is");
    app.add_flag("--json", json, "one JSON object a line, of errors too");
    app.require_subcommand(1);
    app.footer("florin COMMAND --help shows the words of a command.\n"
               "A ROOT is a page number, @N for what batch N of florin roots led to, or none.\n\n" + statuses_text());
    for (const Command &command : commands()) {
        CLI::App *of_command = app.add_subcommand(command.name, command.line);
        of_command->fallthrough();
        of_command->group("Commands");
        Words words(*of_command);
        const Run run = command.define(words);
        of_command->callback([run, &chosen] { chosen = run; });
    }
    app.get_subcommand("stat")->alias("status");
}

// `florin help`, `florin help insert` for those who try that first.
std::vector<std::string> with_help(std::vector<std::string> words) {
    if (words.empty() || words[0] != "help") return words;
    words.erase(words.begin());
    words.push_back("--help");
    return words;
}

// In the words of the parser, but for the first word: which commands there are it does not say.
Trouble usage_of(const CLI::App &app, const std::vector<std::string> &words, std::string message) {
    const auto chosen = app.get_subcommands();
    if (chosen.empty()) message = words.empty() || words[0][0] == '-' ? "no command is given" : "there is no command " + words[0];
    Trouble trouble = usage_trouble(message);
    trouble.next = "florin " + (chosen.empty() ? std::string() : chosen[0]->get_name() + " ") + "--help shows what can be said.";
    return trouble;
}

}  // namespace

Run read_command_line(const std::vector<std::string> &given, bool &json) {
    CLI::App app("", "florin");
    Run chosen;
    define(app, json, chosen);
    const std::vector<std::string> words = with_help(given);
    try {
        std::vector<std::string> backwards(words.rbegin(), words.rend());
        app.parse(backwards);
    } catch (const CLI::CallForHelp &) {
        std::fputs(app.help().c_str(), stdout);
        Output(false).flush();
        return {};
    } catch (const CLI::CallForVersion &version) {
        std::printf("%s\n", version.what());
        Output(false).flush();
        return {};
    } catch (const CLI::ParseError &bad) {
        throw usage_of(app, words, bad.what());
    }
    return chosen;
}

namespace {

// CLI11 shows a set of choices as {a,b}, in the place of a type.
std::vector<std::string> choices_of(const CLI::Option &option) {
    const std::string type = option.get_type_name();
    const std::size_t begin = type.find('{'), end = type.find('}');
    if (begin == std::string::npos || end == std::string::npos) return {};
    return CLI::detail::split(type.substr(begin + 1, end - begin - 1), ',');
}

DescribedOption described(const CLI::App &app, const CLI::Option &option) {
    DescribedOption words;
    words.is_word = option.get_positional();
    words.is_required = option.get_required();
    words.is_help = &option == app.get_help_ptr();
    words.help = option.get_description();
    words.choices = choices_of(option);
    if (option.get_expected_max() > 0) words.type = option.get_type_name();
    if (words.is_word) words.names.push_back(option.get_name(true));
    for (const std::string &name : option.get_snames()) words.names.push_back("-" + name);
    for (const std::string &name : option.get_lnames()) words.names.push_back("--" + name);
    return words;
}

DescribedCommand described(const CLI::App &app) {
    DescribedCommand command{app.get_name(), app.get_description(), app.get_footer(), app.get_aliases(), {}};
    for (const CLI::Option *option : app.get_options()) command.options.push_back(described(app, *option));
    return command;
}

}  // namespace

Description described() {
    CLI::App app("", "florin");
    bool json = false;
    Run chosen;
    define(app, json, chosen);
    Description description{described(app), {}};
    for (const CLI::App *command : app.get_subcommands(nullptr)) description.commands.push_back(described(*command));
    return description;
}

}  // namespace florin
