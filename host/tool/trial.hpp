// A tree tried on a schedule: the figures that sweep, choose and compare show.
#ifndef HMCS_TRIAL_HPP
#define HMCS_TRIAL_HPP

#include "measured.hpp"
#include "schedules.hpp"
#include "table.hpp"

#include <optional>

namespace tool {

class Words;

struct Trial {
    hmcs::Refusal refusal;
    Totals counts;
    hmcs::Waits waits; // of all threads together
    Missing missing;
    std::uint64_t least_wait = 0;       // the smallest of the largest waits, where several seeds were run
    std::vector<std::uint64_t> longest; // of each domain, its longest tenure
    std::uint64_t allowance = 0;        // the largest of the root's members
    std::uint64_t possible_wait = 0;    // the longest that any thread can wait while nobody stalls, whatever the schedule
    std::optional<double> time;         // per entry, where passing times are given
    std::optional<double> longest_time; // what the longest possible wait is in time at most, where the time inside is given
    std::optional<double> proved_time;  // the same by the proved rate, in an even tree of two or three levels

    // A wait above the longest possible one was seen, so a thread stalled.
    bool stalled() const { return waits.largest > possible_wait; }
};

// The mark after a wait above the longest possible one.
extern const char *const bypassed;
// What it means that such a wait was seen.
std::string above_possible(std::uint64_t seen, std::uint64_t possible);
// Says on standard error what a reader of the row must know: that it cannot be compared, or that a thread stalled.
void warn_of(const std::string &name, const Trial &trial);

// Runs the schedule from a fresh lock of the tree. With several seeds it runs each; the counts are sums and the waits the worst.
Trial try_tree(const hmcs::Tree &tree, const Schedule &schedule, const std::optional<hmcs::PassingTimes> &times, const std::optional<double> &hold);

// P1,P2,P3 of the option --times, if given; refused if `rate` refuses them.
std::optional<hmcs::PassingTimes> times_of(const Words &words);
// The option --hold, the time inside, which goes with --times.
std::optional<double> hold_of(const Words &words, const std::optional<hmcs::PassingTimes> &times);
// A real number, as the command reads it.
double real_number(const std::string &name, const std::string &word);
// The shortest digits that read back as the same number; for people, four after the point.
std::string shortest(double number);
std::string four_digits(double number);
// A cell for a time, or for none.
void add_time(Table &table, const std::optional<double> &time);

// The columns from the entries to the waits and times, and the cells of a row there.
struct Shown {
    bool timed = false; // passing times were given
    bool seeds = false; // several seeds were run
    bool held = false;  // the time inside was given
};

void add_trial_columns(Table &table, const Shown &shown);
void add_trial(Table &table, const Trial &trial, const Shown &shown);

} // namespace tool

#endif
