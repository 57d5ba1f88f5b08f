// A sweep: one tree and some schedules, tried with several thresholds.
#ifndef HMCS_SWEEP_HPP
#define HMCS_SWEEP_HPP

#include "trial.hpp"

namespace tool {

// Domains that share a threshold, and the thresholds to try.
struct Axis {
    std::string name; // "domains 1,4", "level 2"
    std::vector<std::uint32_t> domains;
    std::vector<std::uint16_t> thresholds;
};

// One run: a threshold for each axis, and one schedule.
struct SweepRow {
    std::vector<std::uint16_t> thresholds;
    std::size_t schedule = 0;
    Trial trial;
};

struct Sweep {
    hmcs::Tree tree;
    std::vector<Axis> axes;
    std::vector<Schedule> schedules;
    std::optional<hmcs::PassingTimes> times;
    std::optional<double> hold;
    std::vector<SweepRow> rows; // schedule by schedule, the last axis fastest
};

// "threshold 16", with the schedule if there are several.
std::string name_of(const Sweep &sweep, const SweepRow &row);
Table sweep_table(const Sweep &sweep);
std::string sweep_page(const Sweep &sweep);

} // namespace tool

#endif
