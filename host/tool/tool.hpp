// What the files of the command share: how it ends, its words, its inputs and its output. It holds no lock logic: every figure of a lock comes
// from a function of hmcs.h.
#ifndef HMCS_TOOL_HPP
#define HMCS_TOOL_HPP

#include "hmcs.hpp"
#include "table.hpp"

#include <string>
#include <string_view>
#include <vector>

namespace tool {

// How the command ends; wrong usage and files that cannot be read or written both end with 2.
enum Status { accepted = 0, refused = 1, failed = 2 };

// Thrown if a command cannot continue: its exit status and the text for standard error.
struct Stop {
    Status status;
    std::string said;
};

[[noreturn]] void fail(const std::string &said);
[[noreturn]] void refuse(const std::string &where, const hmcs::Refusal &refusal);
// A line on standard error; the command continues.
void warn(const std::string &said);

// An option of a command, with or without a value.
struct Option {
    std::string name;
    bool has_value;
};

// The words after a command: options by name, in order, and the others by position.
class Words {
  public:
    Words(const std::vector<std::string> &words, const std::vector<Option> &known);

    bool asks_for_help() const { return help_; }
    bool has(const std::string &name) const { return !values(name).empty(); }
    std::vector<std::string> values(const std::string &name) const;
    // The options with these names and their values, in the given order.
    std::vector<std::pair<std::string, std::string>> given(const std::vector<std::string> &names) const;
    std::string value(const std::string &name, const std::string &otherwise) const; // refuses a repeated option
    const std::vector<std::string> &others() const { return others_; }

  private:
    std::vector<std::pair<std::string, std::string>> options_;
    std::vector<std::string> others_;
    bool help_ = false;
};

// A command: its name, a summary line, its help, its options, how many other words it takes, and what it does.
struct Command {
    const char *name;
    const char *line;
    std::string help;
    std::vector<Option> options;
    std::size_t least_words, most_words;
    std::string (*run)(const Words &); // returns the standard output
};

Command machine_command();
Command tree_command();
Command make_command();
Command show_command();
Command run_command();
Command steps_command();
Command waits_command();
Command tenures_command();
Command chain_command();
Command sweep_command();
Command choose_command();
Command compare_command();
Command page_command();
Command rate_command();
Command journal_command();

// The options that print a table for a program, and the table in the requested form.
std::vector<Option> with_table_options(std::vector<Option> options);
std::string printed(const Words &words, const Table &table);

// Numbers in decimal without a sign; anything else, or a number that is too large, is reported as wrong usage, with the name.
std::uint64_t number(const std::string &name, const std::string &word, std::uint64_t largest);
std::vector<std::string> split(const std::string &text, char at);

// All bytes of a file, or its first ones; the path "-" is standard input.
std::string read_bytes(const std::string &path, std::size_t most);
// Writes a file and returns the line that says so; for "-" it returns the bytes themselves, for standard output. Refuses to overwrite an input.
std::string write_bytes(const std::string &path, const std::string &bytes, const std::vector<std::string> &inputs, const std::string &more = "");

// A lock: its tree and, if it came from a lock file, its schedule.
struct Input {
    hmcs::Tree tree;
    std::vector<std::uint16_t> schedule;
    bool from_file = false; // a lock file, which has a schedule
};

// A lock file whose tree and schedule are accepted.
Input read_lock_file(const std::string &path);
// A tree as text, or a file with one, or the tree of a lock file; with a ticket root if requested for a text.
Input read_tree(const std::string &text_or_path, bool ticket);
// What a command runs: a lock file, or with --schedule a tree and that schedule, of any length.
Input read_run(const Words &words);
// The lock after a schedule of any length from a fresh one.
hmcs::Lock lock_after(const Input &input);
// The options that run a tree instead of a lock file.
std::vector<Option> with_run_options(std::vector<Option> options);
extern const char *const run_help;
// Thread numbers separated by white space.
std::vector<std::uint16_t> turns_of(const std::string &path, const std::string &text);
// The output of `show` for a lock file; if a domain or a thread is missing, the calls refuse it.
Input read_shown(const std::string &path);

} // namespace tool

#endif
