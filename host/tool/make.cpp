// `make`: writes a lock file.
#include "schedules.hpp"
#include "tool.hpp"

namespace tool {

namespace {

// A tree and a schedule, or what `show` printed of both.
Input lock_of(const Words &words) {
    if (words.others().size() == 1) {
        if (words.has("--ticket")) {
            fail("--ticket goes with a tree as text; what `show` printed already says what its root is");
        }
        return read_shown(words.others()[0]);
    }
    Input input = read_tree(words.others()[0], words.has("--ticket"));
    const Schedule schedule(words.others()[1]);
    if (schedule.has_seeds()) {
        fail("make: expected one seed, got a range");
    }
    input.schedule = schedule.turns(input.tree);
    return input;
}

std::string make(const Words &words) {
    const std::string path = words.value("-o", "");
    if (path.empty()) {
        fail("make: -o FILE is required: the lock file to write");
    }
    const Input input = lock_of(words);
    const hmcs::WriteResult result = hmcs::write_file(input.tree, input.schedule);
    if (result.refusal.number == HMCS_FILE_TOO_LONG || result.refusal.number == HMCS_SCHEDULE_LONG) {
        const std::size_t most = (65536 - hmcs::write_file(input.tree, {}).file.size()) / 2; // a turn takes two bytes
        throw Stop{refused, "make: refused by " + std::to_string(result.refusal.number) + " at 0: the schedule has " + std::to_string(input.schedule.size()) +
                                " turns, and a lock file of this tree holds at most " + std::to_string(most) + "\n"};
    }
    if (result.refused()) {
        refuse("make", result.refusal);
    }
    return write_bytes(path, std::string(result.file.begin(), result.file.end()), words.others(), ", " + std::to_string(input.schedule.size()) + " turns");
}

} // namespace

Command make_command() {
    return {"make",
            "writes a lock file from a tree and a schedule",
            "usage: hmcs make TREE SCHEDULE -o FILE [--ticket]\n"
            "       hmcs make SHOWN -o FILE\n"
            "Writes the shortest lock file of a tree and a schedule. TREE is as for `hmcs tree`. A schedule is a\n"
            "list of turns; each turn lets one thread take one step. It is a file of thread numbers, or is\n"
            "generated, with the same result on every machine:\n"
            "\n" +
                std::string(schedule_help) +
                "\n"
                "SHOWN is a file with the output of `hmcs show`.\n"
                "\n"
                "  -o FILE   the lock file to write\n"
                "  --ticket  the root of a tree given as text is a ticket lock\n"
                "\n"
                "  hmcs make '(16(#4) 16(#4))' busy:4000:1 -o two-sockets.lock\n",
            {{"-o", true}, {"--ticket", false}},
            1,
            2,
            make};
}

} // namespace tool
