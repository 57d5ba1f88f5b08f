// What a command reads: lock files, trees as text, and schedules.
#include "schedules.hpp"
#include "tool.hpp"

namespace tool {

namespace {

constexpr std::size_t longest_file = 65536;

// No lock file consists of printable bytes only: its first byte is 0, 1, 128 or 129, or the second is a bit map of at most 3.
bool is_text(const std::string &bytes) {
    return !bytes.empty() && std::all_of(bytes.begin(), bytes.end(), [](char b) { return (b >= ' ' && b <= '~') || b == '\n' || b == '\r' || b == '\t'; });
}

void test_tree(const std::string &where, const hmcs::Tree &tree) {
    const hmcs::Lock lock(tree);
    if (lock.refused()) {
        refuse(where, lock.refusal());
    }
}

hmcs::Tree tree_of_text(const std::string &where, std::string text, bool ticket) {
    if (!text.empty() && text.back() == '\n') {
        text.pop_back();
    }
    hmcs::TextResult result = hmcs::read_tree(text);
    if (result.refused()) {
        throw Stop{refused,
                   where + ": refused by " + std::to_string(result.refusal.number) + " at " + std::to_string(result.refusal.place) + ": " + result.message};
    }
    hmcs_tree words = result.tree.words();
    words.ticket_root = ticket ? 1 : 0;
    return hmcs::Tree::of(words);
}

Input lock_of_bytes(const std::string &path, const std::string &bytes) {
    const hmcs::ReadResult read = hmcs::read_file(reinterpret_cast<const std::uint8_t *>(bytes.data()), bytes.size());
    if (read.refused()) {
        refuse(path, read.refusal);
    }
    test_tree(path, read.tree);
    return Input{read.tree, read.schedule, true};
}

} // namespace

Input read_lock_file(const std::string &path) {
    const std::string bytes = read_bytes(path, longest_file + 1); // one byte more than a lock file may have, with which it is refused
    Input input = lock_of_bytes(path, bytes);
    hmcs::Lock lock(input.tree);
    const hmcs::RunResult run = lock.run(input.schedule);
    if (run.refused()) {
        refuse(path, run.refusal);
    }
    return input;
}

Input read_tree(const std::string &text_or_path, bool ticket) {
    if (text_or_path.find('(') != std::string::npos) {
        return Input{tree_of_text("the tree", text_or_path, ticket), {}, false};
    }
    if (text_or_path.empty()) {
        fail("expected a tree or a file with one, got an empty word");
    }
    const std::string bytes = read_bytes(text_or_path, SIZE_MAX);
    if (bytes.empty()) {
        fail(text_or_path + ": the file is empty");
    }
    if (is_text(bytes)) {
        return Input{tree_of_text(text_or_path, bytes, ticket), {}, false};
    }
    if (ticket) {
        fail("--ticket goes with a tree as text; the lock file " + text_or_path + " already says what its root is");
    }
    return lock_of_bytes(text_or_path, bytes.substr(0, longest_file + 1));
}

const char *const run_help = "  --schedule S   runs a schedule as for `hmcs make` on a tree instead of FILE\n"
                             "  --ticket       if the tree is given as text, its root is a ticket lock\n";

std::vector<Option> with_run_options(std::vector<Option> options) {
    options.push_back({"--schedule", true});
    options.push_back({"--ticket", false});
    return options;
}

Input read_run(const Words &words) {
    if (!words.has("--schedule")) {
        if (words.has("--ticket")) {
            fail("--ticket goes with --schedule and a tree as text; a lock file already says what its root is");
        }
        return read_lock_file(words.others()[0]);
    }
    Input input = read_tree(words.others()[0], words.has("--ticket"));
    const Schedule schedule(words.value("--schedule", ""));
    if (schedule.has_seeds()) {
        fail("--schedule: expected one seed, got a range");
    }
    input.schedule = schedule.turns(input.tree);
    return input;
}

hmcs::Lock lock_after(const Input &input) {
    constexpr std::size_t most = 65536; // turns of one run
    hmcs::Lock lock(input.tree);
    for (std::size_t from = 0; from < input.schedule.size(); from += most) {
        if (const hmcs::RunResult run = lock.run(input.schedule.data() + from, std::min(most, input.schedule.size() - from)); run.refused()) {
            refuse("the schedule", run.refusal);
        }
    }
    return lock;
}

} // namespace tool
