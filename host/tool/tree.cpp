// `tree`: the domains of a tree, indented, and the number of rounds within which every thread enters.
#include "tool.hpp"
#include "trees.hpp"

namespace tool {

namespace {

std::string rounds_line(const hmcs::Tree &tree) {
    const hmcs::RoundsResult answer = hmcs::rounds(tree);
    if (answer.rounds == UINT64_MAX) {
        return "every thread enters sooner or later, but the bound on rounds is 2^64-1 or more\n";
    }
    const std::string turns = answer.turns == UINT64_MAX ? "2^64-1 turns or more" : std::to_string(answer.turns) + " turns";
    return "every thread enters within " + std::to_string(answer.rounds) + " rounds, " + turns + " by round robin\n";
}

} // namespace

Command tree_command() {
    return {"tree",
            "the domains of a tree, indented",
            "usage: hmcs tree TREE [--ticket] [--csv | --json]\n"
            "Prints the domains of a tree, each indented below its parent: number, level (the root is at level\n"
            "1), threshold, allowance, longest possible wait, and the threads at home in it. That wait is the\n"
            "largest number of entries of others that a thread of the home waits for on any schedule, as long as\n"
            "nobody stalls: while a thread that could move gets no turn, others may enter without end. The\n"
            "allowance is how many entries the threads under a domain may make while another member of its\n"
            "parent waits: its threshold times the largest allowance of its members, 1 for a thread. The last\n"
            "line says after how many rounds every thread has entered, from any starting point. In a round every\n"
            "thread has one or more turns; with round robin each has one. Turns are not a measure of time. TREE\n"
            "is a text, a file with one (a line feed at its end is ignored), or a lock file.\n"
            "\n"
            "  --ticket       the root of a tree given as text is a ticket lock; otherwise it is a queue\n"
            "  --csv, --json  for programs, without the last line\n"
            "\n"
            "In a text, the parentheses of a domain contain `#` and the number of threads at home there, or\n"
            "domains separated by one space, each with its threshold in front. Two sockets of threshold 16, each\n"
            "with two groups of threshold 4 with four threads:\n"
            "\n"
            "  hmcs tree '(16(4(#4) 4(#4)) 16(4(#4) 4(#4)))'\n",
            with_table_options({{"--ticket", false}}),
            1,
            1,
            [](const Words &words) {
                const hmcs::Tree tree = read_tree(words.others()[0], words.has("--ticket")).tree;
                const bool for_people = !words.has("--csv") && !words.has("--json");
                return printed(words, tree_table(tree)) + (for_people ? rounds_line(tree) : "");
            }};
}

} // namespace tool
