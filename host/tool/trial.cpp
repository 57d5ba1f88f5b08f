#include "trial.hpp"

#include "tool.hpp"
#include "trees.hpp"

#include <charconv>
#include <cstdio>

namespace tool {

namespace {

std::uint64_t largest_allowance(const hmcs::Tree &tree) {
    const std::vector<std::uint64_t> allowances = hmcs::allowances(tree).domains;
    std::uint64_t largest = 0;
    for (std::size_t domain = 1; domain < allowances.size(); ++domain) {
        largest = tree.words().parents[domain] == 0 ? std::max(largest, allowances[domain]) : largest;
    }
    return largest;
}

// The thresholds from level 2 on, if all threads are at home on the last level and each level has one threshold.
std::optional<std::vector<std::uint16_t>> thresholds_by_level(const hmcs::Tree &tree) {
    std::vector<std::uint16_t> thresholds;
    std::vector<std::uint32_t> levels(tree.words().domains);
    for (const Domain &domain : domains_in_order(tree)) {
        levels[domain.number] = domain.level;
        if (domain.level < 2) {
            continue;
        }
        thresholds.resize(std::max<std::size_t>(thresholds.size(), domain.level - 1));
        std::uint16_t &threshold = thresholds[domain.level - 2];
        if (threshold != 0 && threshold != tree.words().thresholds[domain.number]) {
            return std::nullopt;
        }
        threshold = tree.words().thresholds[domain.number];
    }
    for (std::uint32_t thread = 0; thread < tree.words().threads; ++thread) {
        if (levels[tree.words().homes[thread]] != thresholds.size() + 1) {
            return std::nullopt;
        }
    }
    return thresholds;
}

// By the proved rate. In a tree of two levels the lock never passes between homes below one domain, as with a threshold of 1 there.
std::optional<double> proved_time(const hmcs::Tree &tree, const hmcs::PassingTimes &times) {
    const std::optional<std::vector<std::uint16_t>> thresholds = thresholds_by_level(tree);
    if (!thresholds || thresholds->empty() || thresholds->size() > 2) {
        return std::nullopt;
    }
    const hmcs::RateResult result = hmcs::rate(thresholds->back(), thresholds->size() == 1 ? 1 : thresholds->front(), times);
    return result.accepted() ? std::optional<double>(1 / result.rate) : std::nullopt;
}

std::optional<double> time_per_entry(const Totals &counts, const hmcs::PassingTimes &times) {
    if (counts.entries == 0) {
        return std::nullopt;
    }
    return (times.p1 * counts.passed + times.p2 * counts.crossed + times.p3 * counts.root) / counts.entries;
}

} // namespace

void add_time(Table &table, const std::optional<double> &time) {
    if (!time) {
        table.cell("-", Value());
        return;
    }
    table.cell(four_digits(*time), Value::of_decimal(shortest(*time)));
}

namespace {

// Adds a seed: counts and attempts are added, and of waits and missing threads the worst is kept.
void join(Trial &trial, const Measured &measured, bool first) {
    const Missing missing = measured.missing();
    trial.counts.add(measured.counts);
    trial.waits = hmcs::joined(trial.waits, measured.all);
    trial.least_wait = first ? missing.at_least() : std::min(trial.least_wait, missing.at_least());
    trial.missing = first ? missing : trial.missing.worst(missing);
    trial.longest.resize(HMCS_DOMAINS);
    for (std::size_t domain = 0; domain < HMCS_DOMAINS; ++domain) {
        trial.longest[domain] = std::max(trial.longest[domain], measured.state.longest[domain]);
    }
}

} // namespace

Trial try_tree(const hmcs::Tree &tree, const Schedule &schedule, const std::optional<hmcs::PassingTimes> &times, const std::optional<double> &hold) {
    Trial trial;
    trial.refusal = hmcs::Lock(tree).refusal();
    if (trial.refusal.refused()) {
        return trial;
    }
    bool first = true;
    for (const Schedule &one : schedule.by_seed()) {
        const Measured measured = measure(tree, one.turns(tree));
        trial.refusal = measured.refusal;
        if (trial.refusal.refused()) {
            return trial;
        }
        join(trial, measured, first);
        first = false;
    }
    trial.allowance = largest_allowance(tree);
    trial.possible_wait = hmcs::wait_bounds(tree).largest();
    if (times) {
        trial.time = time_per_entry(trial.counts, *times);
        trial.proved_time = proved_time(tree, *times);
    }
    if (times && hold) { // who is inside at the start leaves, then each entry of the wait is passed on and held, and then the own one is passed on
        const double slowest = std::max({times->p1, times->p2, times->p3});
        trial.longest_time = (static_cast<double>(trial.possible_wait) + 1) * (slowest + *hold);
    }
    return trial;
}

double real_number(const std::string &name, const std::string &word) {
    double value = 0;
    const auto [end, error] = std::from_chars(word.data(), word.data() + word.size(), value);
    if (word.empty() || end != word.data() + word.size() || error != std::errc()) {
        fail(name + " must be a number, not \"" + word + "\"");
    }
    return value;
}

std::string shortest(double number) {
    char text[400]; // enough for the largest and the smallest number without an exponent
    const auto written = std::to_chars(text, text + sizeof text, number, std::chars_format::fixed);
    return std::string(text, written.ptr);
}

const char *const bypassed = " (bypassed)";

void warn_of(const std::string &name, const Trial &trial) {
    if (!trial.missing.comparable()) {
        warn(name + ": " + trial.missing.why_not() + "; its waits cannot be compared");
    }
    if (trial.stalled()) {
        warn(name + ": " + above_possible(trial.waits.largest, trial.possible_wait));
    }
}

std::string above_possible(std::uint64_t seen, std::uint64_t possible) {
    return "a wait of " + std::to_string(seen) + " was seen, above the longest possible wait of " + std::to_string(possible) +
           ": on this schedule a thread that could move got no turn meanwhile";
}

std::string four_digits(double number) {
    char text[64];
    std::snprintf(text, sizeof text, "%.4f", number);
    return text;
}

std::optional<hmcs::PassingTimes> times_of(const Words &words) {
    if (!words.has("--times")) {
        return std::nullopt;
    }
    const std::vector<std::string> parts = split(words.value("--times", ""), ',');
    if (parts.size() != 3) {
        fail("--times: expected P1,P2,P3: how long it takes to pass the lock on at home, between homes and across the root");
    }
    const hmcs::PassingTimes times{real_number("P1", parts[0]), real_number("P2", parts[1]), real_number("P3", parts[2])};
    if (const hmcs::RateResult result = hmcs::rate(1, 1, times); result.refused()) {
        refuse("--times", result.refusal);
    }
    return times;
}

std::optional<double> hold_of(const Words &words, const std::optional<hmcs::PassingTimes> &times) {
    if (!words.has("--hold")) {
        return std::nullopt;
    }
    const double hold = real_number("--hold", words.value("--hold", ""));
    if (!times || !(hold >= 0 && hold <= 1e9)) {
        fail(times ? "--hold: expected a time from 0 to 1,000,000,000" : "--hold goes with --times, in the same unit");
    }
    return hold;
}

void add_trial_columns(Table &table, const Shown &shown) {
    for (const char *name : {"entries", "root", "crossed", "passed", "stays", "largest wait"}) {
        table.column(name);
    }
    if (shown.seeds) {
        table.column("least by seed");
    }
    table.column("longest possible wait");
    table.mean_column("mean wait");
    for (const char *name : {"never entered", "fewest entries", "under way", "longest under way"}) {
        table.column(name);
    }
    if (shown.timed) {
        table.column("time per entry");
        table.column("time by rate");
    }
    if (shown.held) {
        table.column("longest possible wait in time");
    }
}

void add_trial(Table &table, const Trial &trial, const Shown &shown) {
    const Missing &missing = trial.missing;
    const bool comparable = missing.comparable();
    for (const std::uint64_t count : {trial.counts.entries, trial.counts.root, trial.counts.crossed, trial.counts.passed, trial.counts.stays}) {
        table.cell(count);
    }
    // incomparable waits must not look comparable
    const std::string seen = std::to_string(trial.waits.largest) + (trial.stalled() ? bypassed : "");
    table.cell(comparable ? seen : "at least " + std::to_string(missing.at_least()), Value(trial.waits.largest));
    if (shown.seeds) {
        table.cell(trial.least_wait);
    }
    table.cell(capped(trial.possible_wait), Value(trial.possible_wait));
    if (comparable) {
        table.mean(trial.waits.numerator, trial.waits.denominator);
    } else {
        table.mean(trial.waits.numerator, trial.waits.denominator, "not comparable");
    }
    table.cell(missing.never_entered == 0 ? "0" : std::to_string(missing.never_entered) + " of " + std::to_string(missing.threads),
               Value(missing.never_entered));
    table.cell(missing.fewest_entries);
    table.cell(missing.under_way);
    if (missing.under_way == 0) {
        table.cell("-", Value());
    } else {
        table.cell("at least " + std::to_string(missing.longest_under_way), Value(missing.longest_under_way));
    }
    if (shown.timed) {
        add_time(table, trial.time);
        add_time(table, trial.proved_time);
    }
    if (shown.held) {
        add_time(table, trial.longest_time);
    }
}

} // namespace tool
