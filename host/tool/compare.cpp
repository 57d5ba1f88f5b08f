// `compare`: trees side by side, on the same schedules.
#include "tool.hpp"
#include "trees.hpp"
#include "trial.hpp"

namespace tool {

namespace {

// A tree on the command line: a text or a file; one that begins with "ticket:" has a ticket lock at its root.
hmcs::Tree tree_named(const std::string &word) {
    const std::string prefix = "ticket:";
    const bool ticket = word.rfind(prefix, 0) == 0;
    return read_tree(ticket ? word.substr(prefix.size()) : word, ticket).tree;
}

std::vector<Schedule> schedules_of(const Words &words) {
    std::vector<Schedule> schedules;
    for (const std::string &word : words.values("--schedule")) {
        schedules.emplace_back(word);
    }
    if (schedules.empty()) {
        schedules.emplace_back(usual_schedule);
    }
    return schedules;
}

void add(Table &table, const std::string &name, const Schedule &schedule, const Trial &trial, const Shown &shown, bool several) {
    const bool comparable = trial.missing.comparable();
    table.row();
    table.cell(name);
    table.cell(trial.missing.threads);
    if (several) {
        table.cell(schedule.name());
    }
    add_trial(table, trial, shown);
    table.cell(comparable ? "yes" : "NO", Value::of_truth(comparable));
    if (!comparable) {
        table.mark();
    }
    warn_of(name, trial);
}

std::string compare(const Words &words) {
    const std::optional<hmcs::PassingTimes> times = times_of(words);
    const std::optional<double> hold = hold_of(words, times);
    const std::vector<Schedule> schedules = schedules_of(words);
    const Shown shown{times.has_value(), std::any_of(schedules.begin(), schedules.end(), [](const Schedule &s) { return s.has_seeds(); }), hold.has_value()};
    Table table;
    table.column("tree", Side::left);
    table.column("threads");
    if (schedules.size() > 1) {
        table.column("schedule", Side::left);
    }
    add_trial_columns(table, shown);
    table.column("comparable", Side::left);
    bool missing = false;
    std::uint64_t fewest = UINT64_MAX;
    for (const std::string &word : words.others()) {
        const hmcs::Tree tree = tree_named(word);
        for (const Schedule &schedule : schedules) {
            const Trial trial = try_tree(tree, schedule, times, hold);
            if (trial.refusal.refused()) {
                refuse(word, trial.refusal);
            }
            add(table, word, schedule, trial, shown, schedules.size() > 1);
            missing = missing || !trial.missing.comparable();
            fewest = std::min(fewest, trial.missing.fewest_entries);
        }
    }
    warn_how_to_compare(missing, fewest);
    return printed(words, table);
}

} // namespace

Command compare_command() {
    return {"compare",
            "several trees side by side",
            "usage: hmcs compare TREE TREE .. [--schedule S ..] [--times P1,P2,P3 [--hold H]] [--csv | --json]\n"
            "Runs the same schedules on several trees, each from a fresh lock, and prints a row for each, with\n"
            "the columns of `hmcs sweep`. TREE is as for `hmcs tree`; ticket:TREE has a ticket lock at its\n"
            "root. Use it to see whether a ticket root is better, or whether a level is worth having. The\n"
            "default schedule is busy:65536:1.\n"
            "\n"
            "  --schedule S      the schedule to run; if repeated, each tree has a row for each schedule\n"
            "  --times P1,P2,P3  adds the time per entry, as for `hmcs sweep`\n"
            "  --hold H          adds an upper bound of the longest possible wait in time\n"
            "  --csv, --json     for programs\n"
            "\n"
            "  hmcs compare '(4(#4) 4(#4))' 'ticket:(4(#4) 4(#4))' '(#8)' --times 0.05,0.2,1\n",
            with_table_options({{"--schedule", true}, {"--times", true}, {"--hold", true}}),
            2,
            64,
            compare};
}

} // namespace tool
