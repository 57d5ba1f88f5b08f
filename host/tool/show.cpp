// `show`: the contents of a lock file.
#include "tool.hpp"
#include "trees.hpp"

namespace tool {

namespace {

std::string numbers(const std::vector<std::uint16_t> &schedule) {
    std::string text;
    std::size_t column = 0;
    for (const std::uint16_t thread : schedule) {
        const std::string word = std::to_string(thread);
        const bool fits = column + 1 + word.size() <= 100;
        text += column == 0 ? "" : fits ? " " : "\n";
        column = column == 0 || !fits ? word.size() : column + 1 + word.size();
        text += word;
    }
    return schedule.empty() ? "" : text + "\n";
}

std::string show(const Words &words) {
    const std::string &path = words.others()[0];
    const Input input = read_lock_file(path);
    const std::optional<std::string> text = text_of(input.tree);
    if (words.has("--tree") && words.has("--schedule")) {
        fail("show: give --tree or --schedule, not both");
    }
    if (words.has("--schedule")) {
        return numbers(input.schedule);
    }
    if (words.has("--tree")) {
        if (!text) {
            fail(path + ": its tree has no text, since its domains or threads are numbered in another order");
        }
        return *text + "\n";
    }
    const std::string ticket = input.tree.root() == hmcs::RootKind::ticket ? " --ticket" : "";
    return (text ? "tree: " + *text + ticket : std::string("this tree has no text: its domains or threads are numbered in another order")) + "\n\n" +
           tree_table(input.tree).text() + "\nschedule: " + std::to_string(input.schedule.size()) + " turns\n" + numbers(input.schedule);
}

} // namespace

Command show_command() {
    return {"show",
            "the tree and the schedule of a lock file",
            "usage: hmcs show FILE [--tree | --schedule]\n"
            "Prints the contents of a lock file: its tree as text and as `hmcs tree` shows it, and its schedule\n"
            "as thread numbers.\n"
            "\n"
            "  --tree      only the tree's text\n"
            "  --schedule  only the thread numbers\n"
            "\n"
            "`hmcs make` turns the output into the same file again, if that file is as short as possible:\n"
            "\n"
            "  hmcs show two-sockets.lock >shown\n"
            "  hmcs make shown -o again.lock\n",
            {{"--tree", false}, {"--schedule", false}},
            1,
            1,
            show};
}

} // namespace tool
