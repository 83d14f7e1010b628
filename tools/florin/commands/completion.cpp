// What a shell completes, out of what the commands themselves say.
#include "commands/command.h"
#include "commands/options.h"

#include <cstdio>
#include <set>

namespace florin {

namespace {

// The script: between its begin and its end stands a table, which has for each command
//   options   its options
//   files     those that a file's name follows
//   others    those that another word follows, which nobody can complete
//   words     for each of its words what may stand there: FILE, or one of several
const char kBegin[] = R"END(# Completion for florin in bash. florin completion bash prints it.
_florin() {
    local word=${COMP_WORDS[COMP_CWORD]} before=${COMP_WORDS[COMP_CWORD - 1]} command='' options='' files='' others='' words=() place=0 i
    COMPREPLY=()
    for ((i = 1; i < COMP_CWORD; ++i)); do
        [[ ${COMP_WORDS[i]} == -* ]] || { command=${COMP_WORDS[i]}; break; }
    done
    case $command in
)END";

const char kEnd[] = R"END(    esac
    # Behind the command: how many words are there already.
    for ((i = i + 1; i < COMP_CWORD; ++i)); do
        if [[ " $files $others " == *" ${COMP_WORDS[i]} "* ]]; then
            i=$((i + 1))
            # @1 is two words to bash.
            [[ ${COMP_WORDS[i]} != @ ]] || i=$((i + 1))
        elif [[ ${COMP_WORDS[i]} != -?* ]]; then
            place=$((place + 1))
        fi
    done
    if [[ " $others " == *" $before "* ]]; then
        :
    elif [[ " $files " == *" $before "* || ( $word != -* && ${words[place]} == FILE ) ]]; then
        compopt -o filenames 2> /dev/null
        mapfile -t COMPREPLY < <(compgen -f -- "$word")
    elif [[ $word == -* ]]; then
        mapfile -t COMPREPLY < <(compgen -W "$options" -- "$word")
    else
        mapfile -t COMPREPLY < <(compgen -W "${words[place]}" -- "$word")
    fi
}
complete -F _florin florin
)END";

std::string joined(const std::vector<std::string> &words) {
    std::string text;
    for (const std::string &word : words) text += (text.empty() ? "" : " ") + word;
    return text;
}

// What may stand for a word of the command line: the name of a file, one of a set, or what nobody can know.
std::string choice_of(const DescribedOption &word) {
    static const std::set<std::string> files = {"STORE", "FILE", "NEW", "OLD"};
    return files.count(word.names[0]) > 0 ? "FILE" : joined(word.choices);
}

// A line of the table. Options of florin itself may stand behind a command too.
std::string row(const std::string &names, const std::vector<const DescribedCommand *> &commands, const std::string &first_word) {
    std::vector<std::string> options, files, others;
    std::string words = first_word.empty() ? "" : "'" + first_word + "' ";
    std::set<std::string> seen;
    for (const DescribedCommand *command : commands) {
        for (const DescribedOption &option : command->options) {
            if (option.is_word) words += "'" + choice_of(option) + "' ";
            const std::string name = option.names.back();
            if (option.is_word || !seen.insert(name).second) continue;
            options.push_back(name);
            if (option.takes_value()) (option.type == "FILE" ? files : others).push_back(name);
        }
    }
    if (!words.empty()) words.pop_back();
    return "        " + names + ") options='" + joined(options) + "' files='" + joined(files) + "' others='" + joined(others) +
           "' words=(" + words + ") ;;\n";
}

std::string bash_script(const Description &all) {
    std::vector<std::string> names;
    std::string rows;
    for (const DescribedCommand &command : all.commands) {
        names.push_back(command.name);
        std::string pattern = command.name;
        for (const std::string &alias : command.aliases) pattern += "|" + alias;
        rows += row(pattern, {&command, &all.florin}, "");
    }
    return kBegin + row("''", {&all.florin}, joined(names) + " help") + rows + row("help", {}, joined(names)) + kEnd;
}

void completion(Output &out) {
    if (out.json()) throw usage_trouble("florin completion has no --json");
    std::fputs(bash_script(described()).c_str(), stdout);
}

}  // namespace

Run define_completion(Words &words) {
    const auto shell = std::make_shared<std::string>();
    words.choice("SHELL", *shell, {"bash"}, "bash");
    words.footer("For this shell: source <(florin completion bash). zsh takes it after autoload -U bashcompinit && bashcompinit.\n");
    return [shell](Output &out) { completion(out); };
}

}  // namespace florin
