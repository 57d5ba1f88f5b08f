// A choice of thresholds: the levels, what was tried, and what was chosen.
#ifndef HMCS_CHOOSE_HPP
#define HMCS_CHOOSE_HPP

#include "trial.hpp"

namespace tool {

struct Level {
    std::uint32_t number = 0;
    std::vector<std::uint32_t> domains;
    std::uint32_t members = 0; // the most that one of its domains has
};

struct Candidate {
    std::vector<std::uint16_t> thresholds; // one for each level
    std::uint64_t possible_wait = 0;       // the longest, proved
    double expected = 0;                   // cost of an entry, which decides only what is run
    Trial trial;
};

struct Choice {
    hmcs::Tree tree;
    std::uint64_t limit = 0;
    std::optional<hmcs::PassingTimes> times;
    std::optional<double> hold;
    std::string schedule;
    std::vector<Level> levels;
    std::vector<Candidate> tried; // within the limit, by their longest waits
    std::size_t chosen = SIZE_MAX;
    std::vector<Candidate> above; // the next ones, which wait too long
};

hmcs::Tree with_thresholds(const hmcs::Tree &tree, const std::vector<Level> &levels, const std::vector<std::uint16_t> &thresholds);
// What an entry cost: its time or, without passing times, the share of root entries and, if these are equal, of crossed ones.
double cost_of(const Trial &trial);

// The choice in a sentence, and the deciding table, for people.
std::string choice_text(const Choice &choice);
// Every column, for programs and the page.
Table choice_table(const Choice &choice);
std::string choice_page(const Choice &choice);
// Time per entry, or root entries, against the longest wait.
std::string choice_picture(const Choice &choice);

} // namespace tool

#endif
