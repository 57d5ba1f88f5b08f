// The command: `hmcs WORD ..`. Finds the word, reads the rest, prints the result, and ends with 0 accepted, 1 refused or 2 not done.
#include "html.hpp"
#include "tool.hpp"

#include <cerrno>
#include <cstdio>
#include <cstring>
#include <exception>

namespace {

std::vector<tool::Command> commands() {
    return {tool::machine_command(), tool::tree_command(),    tool::make_command(),    tool::show_command(),  tool::run_command(),
            tool::steps_command(),   tool::waits_command(),   tool::tenures_command(), tool::chain_command(), tool::sweep_command(),
            tool::choose_command(),  tool::compare_command(), tool::page_command(),    tool::rate_command(),  tool::journal_command()};
}

std::string help() {
    std::string text = "usage: hmcs COMMAND ..\n"
                       "Simulates a hierarchical MCS lock: trees, schedules, runs, and how to choose thresholds.\n\n";
    for (const tool::Command &command : commands()) {
        text += "  " + std::string(command.name) + std::string(9 - std::strlen(command.name), ' ') + command.line + "\n";
    }
    return text + "\n`hmcs COMMAND --help` says more and gives an example. `hmcs --version` prints the version.\n"
                  "All figures come from the proved library.\n"
                  "`-` in place of a file is standard input or, after -o, standard output; `--` ends the options.\n"
                  "Exit status: 0 accepted, 1 refused, 2 not done: wrong usage, or a file that cannot be read or written.\n";
}

std::string obey(const std::vector<std::string> &words) {
    if (words.empty()) {
        tool::fail("no command given; --help lists them");
    }
    if (words[0] == "--help" || words[0] == "-h" || words[0] == "help") {
        return help();
    }
    if (words[0] == "--version") {
        return "hmcs " HMCS_VERSION "\n";
    }
    for (const tool::Command &command : commands()) {
        if (words[0] != command.name) {
            continue;
        }
        const tool::Words read({words.begin() + 1, words.end()}, command.options);
        if (read.asks_for_help()) {
            return command.help;
        }
        if (read.others().size() < command.least_words || read.others().size() > command.most_words) {
            const std::string most = std::to_string(command.most_words);
            const std::string or_more = command.least_words == command.most_words       ? ""
                                        : command.most_words - command.least_words == 1 ? " or " + most
                                                                                        : " to " + most;
            const std::string expected = std::to_string(command.least_words) + or_more + (command.most_words == 1 ? " argument" : " arguments");
            tool::fail(words[0] + ": expected " + expected + ", got " + std::to_string(read.others().size()) + "; see `hmcs " + words[0] + " --help`");
        }
        return command.run(read);
    }
    tool::fail("unknown command " + words[0] + "; --help lists them");
}

// A failed write is an error. A broken pipe ends the command without a message, as it ends other programs.
void print(const std::string &text) {
    errno = 0;
    if (std::fwrite(text.data(), 1, text.size(), stdout) != text.size() || std::fflush(stdout) != 0) {
        tool::fail(std::string("standard output: ") + std::strerror(errno));
    }
}

} // namespace

int main(int count, char **words) {
    try {
        const std::vector<std::string> given(words + std::min(count, 1), words + count);
        tool::remember_command(given);
        print(obey(given));
        return tool::accepted;
    } catch (const tool::Stop &stop) {
        std::fputs(("hmcs: " + stop.said).c_str(), stderr);
        return stop.status;
    } catch (const std::exception &exception) { // from the standard library, for example if memory runs out
        std::fprintf(stderr, "hmcs: %s\n", exception.what());
        return tool::failed;
    }
}
