// Reads the output of `show`: the table of the tree, one domain per line, and the schedule after it.
#include "tool.hpp"

#include <sstream>

namespace tool {

namespace {

[[noreturn]] void fail_at(const std::string &path, const std::string &line) { fail(path + ": not a line that `show` prints: " + line); }

// The threads at home in a domain, as ranges: "0-3 8".
void add_threads(const std::string &path, const std::string &word, std::uint32_t domain, hmcs_tree &words) {
    const std::vector<std::string> ends = split(word, '-');
    const std::uint64_t first = number(path + ": a thread", ends.front(), HMCS_THREADS - 1);
    const std::uint64_t last = number(path + ": a thread", ends.back(), HMCS_THREADS - 1);
    for (std::uint64_t thread = first; thread <= last; ++thread) {
        words.homes[thread] = static_cast<std::uint8_t>(domain);
        words.threads = std::max(words.threads, static_cast<std::uint32_t>(thread + 1));
    }
}

// One line of the table: the domain indented by its level, then level, threshold, allowance and, for a home, longest wait and threads. The path has
// the domain of each level.
void add_domain(const std::string &path, const std::string &line, std::vector<std::uint32_t> &above, hmcs_tree &words) {
    std::istringstream parts(line);
    std::string name, level, threshold, allowance, thread;
    parts >> name;
    if (name == "0,") {
        for (std::string word; parts >> word && word != "queue" && word != "lock";) {
            words.ticket_root = word == "ticket" ? 1 : words.ticket_root;
        }
        name = "0";
    }
    if (!(parts >> level >> threshold >> allowance)) {
        fail_at(path, line);
    }
    const auto domain = static_cast<std::uint32_t>(number(path + ": a domain", name, HMCS_DOMAINS - 1));
    const std::uint64_t depth = number(path + ": a level", level, above.size() + 1);
    if (depth == 0 || (depth == 1) != (domain == 0)) {
        fail_at(path, line);
    }
    words.domains = std::max(words.domains, domain + 1);
    above.resize(depth - 1);
    if (domain != 0) {
        words.parents[domain] = static_cast<std::uint8_t>(above.back());
        words.thresholds[domain] = static_cast<std::uint16_t>(number(path + ": a threshold", threshold, 65535));
    }
    above.push_back(domain);
    parts >> thread; // the longest wait, which follows from the rest
    while (parts >> thread) {
        add_threads(path, thread, domain, words);
    }
}

} // namespace

Input read_shown(const std::string &path) {
    std::istringstream lines(read_bytes(path, SIZE_MAX));
    std::string line;
    hmcs_tree words{};
    std::vector<std::uint32_t> above;
    while (std::getline(lines, line) && line.rfind("domain ", 0) != 0) {
    }
    while (std::getline(lines, line) && !line.empty()) {
        add_domain(path, line, above, words);
    }
    if (words.domains == 0 || !std::getline(lines, line) || line.rfind("schedule: ", 0) != 0) {
        fail(path + ": not the output of `show`; a schedule must follow the tree");
    }
    const std::string turns((std::istreambuf_iterator<char>(lines)), std::istreambuf_iterator<char>());
    return Input{hmcs::Tree::of(words), turns_of(path, turns), true};
}

} // namespace tool
