// `sweep`: tries thresholds, one row for each.
#include "sweep.hpp"
#include "parallel.hpp"
#include "tool.hpp"
#include "trees.hpp"

namespace tool {

namespace {

constexpr std::uint64_t most_rows = 100000;

// The domains that --domain names, by their numbers.
std::vector<std::uint32_t> domains_of(const std::string &word, const hmcs::Tree &tree) {
    std::vector<std::uint32_t> domains;
    for (const std::string &part : split(word, ',')) {
        const auto domain = static_cast<std::uint32_t>(number("--domain", part, UINT32_MAX));
        if (domain == 0 || domain >= tree.words().domains) {
            fail("--domain: " + part + (domain == 0 ? " is the root, which has no threshold" : " is not a domain of the tree; `hmcs tree` shows them"));
        }
        domains.push_back(domain);
    }
    return domains;
}

// All domains of a level; the root is level 1 and has no threshold.
std::vector<std::uint32_t> domains_of_level(const std::string &word, const hmcs::Tree &tree) {
    const std::uint64_t level = number("--level", word, UINT32_MAX);
    std::vector<std::uint32_t> domains;
    std::uint32_t deepest = 1;
    for (const Domain &domain : domains_in_order(tree)) {
        deepest = std::max(deepest, domain.level);
        if (domain.level == level && level > 1) {
            domains.push_back(domain.number);
        }
    }
    if (domains.empty()) {
        fail("--level: " + word + (level == 1 ? " is the root, which has no threshold" : " is not a level of the tree, which has " + std::to_string(deepest)));
    }
    return domains;
}

std::uint16_t threshold_of(const std::string &word) {
    const std::uint64_t threshold = number("--thresholds", word, 65535);
    if (threshold == 0) {
        fail("--thresholds: 0 is not a threshold; the smallest is 1");
    }
    return static_cast<std::uint16_t>(threshold);
}

// One threshold, "1..64" for all from the first to the last, or "1..64x2" for the first, twice that, and so on.
void add_thresholds(const std::string &part, std::vector<std::uint16_t> &thresholds) {
    const std::size_t dots = part.find("..");
    if (dots == std::string::npos) {
        thresholds.push_back(threshold_of(part));
        return;
    }
    const std::size_t times = part.find('x', dots);
    const std::uint64_t first = threshold_of(part.substr(0, dots));
    const std::uint64_t last = threshold_of(part.substr(dots + 2, times == std::string::npos ? times : times - dots - 2));
    const std::uint64_t factor = times == std::string::npos ? 1 : number("--thresholds", part.substr(times + 1), 65535);
    if (first > last || (times != std::string::npos && factor < 2)) {
        fail("--thresholds: " + part + " must go up, like 1..8 or 1..64x2");
    }
    for (std::uint64_t threshold = first; threshold <= last; threshold = factor == 1 ? threshold + 1 : threshold * factor) {
        thresholds.push_back(static_cast<std::uint16_t>(threshold));
    }
}

std::vector<std::uint16_t> thresholds_of(const std::string &word) {
    std::vector<std::uint16_t> thresholds;
    for (const std::string &part : split(word, ',')) {
        add_thresholds(part, thresholds);
    }
    return thresholds;
}

std::vector<Axis> axes_of(const Words &words, const hmcs::Tree &tree) {
    const std::vector<std::pair<std::string, std::string>> groups = words.given({"--domain", "--level"});
    const std::vector<std::string> thresholds = words.values("--thresholds");
    if (groups.empty() || thresholds.empty()) {
        fail("sweep: --level (or --domain) and --thresholds are required; --help has an example");
    }
    if (thresholds.size() != 1 && thresholds.size() != groups.size()) {
        fail("sweep: --thresholds must be given once for all groups of domains, or once for each");
    }
    std::vector<Axis> axes;
    std::vector<bool> named(tree.words().domains);
    for (std::size_t a = 0; a < groups.size(); ++a) {
        const auto &[option, word] = groups[a];
        const bool is_level = option == "--level";
        const std::string name = is_level ? "level " + word : (word.find(',') == std::string::npos ? "domain " : "domains ") + word;
        axes.push_back({name, is_level ? domains_of_level(word, tree) : domains_of(word, tree), thresholds_of(thresholds[thresholds.size() == 1 ? 0 : a])});
        for (const std::uint32_t domain : axes.back().domains) {
            if (named[domain]) {
                fail(option + ": domain " + std::to_string(domain) + " is named twice");
            }
            named[domain] = true;
        }
    }
    return axes;
}

std::vector<Schedule> schedules_of(const Words &words, const Input &input) {
    std::vector<Schedule> schedules;
    for (const std::string &name : words.values("--schedule")) {
        const std::vector<Schedule> named = words.has("--each-seed") ? Schedule(name).by_seed() : std::vector<Schedule>{Schedule(name)};
        schedules.insert(schedules.end(), named.begin(), named.end());
    }
    if (schedules.empty() && input.from_file) {
        schedules.emplace_back(words.others()[0], input.schedule);
    } else if (schedules.empty()) {
        schedules.emplace_back(usual_schedule);
    }
    return schedules;
}

// Every threshold of every axis with every schedule.
std::vector<SweepRow> rows_of(const Sweep &sweep) {
    std::uint64_t count = sweep.schedules.size();
    for (const Axis &axis : sweep.axes) {
        count *= axis.thresholds.size();
        if (count > most_rows) {
            fail("sweep: more than " + std::to_string(most_rows) + " rows");
        }
    }
    std::vector<SweepRow> rows(count);
    for (std::size_t k = 0; k < rows.size(); ++k) {
        std::size_t left = k;
        rows[k].thresholds.resize(sweep.axes.size());
        for (std::size_t a = sweep.axes.size(); a-- > 0; left /= sweep.axes[a].thresholds.size()) {
            rows[k].thresholds[a] = sweep.axes[a].thresholds[left % sweep.axes[a].thresholds.size()];
        }
        rows[k].schedule = left;
    }
    return rows;
}

void run_row(const Sweep &sweep, SweepRow &row) {
    hmcs_tree words = sweep.tree.words();
    for (std::size_t a = 0; a < sweep.axes.size(); ++a) {
        for (const std::uint32_t domain : sweep.axes[a].domains) {
            words.thresholds[domain] = row.thresholds[a];
        }
    }
    row.trial = try_tree(hmcs::Tree::of(words), sweep.schedules[row.schedule], sweep.times, sweep.hold);
}

std::string sweep(const Words &words) {
    const Input input = read_tree(words.others()[0], words.has("--ticket"));
    Sweep sweep;
    sweep.tree = input.tree;
    sweep.axes = axes_of(words, input.tree);
    sweep.schedules = schedules_of(words, input);
    sweep.times = times_of(words);
    sweep.hold = hold_of(words, sweep.times);
    sweep.rows = rows_of(sweep);
    run_each(sweep.rows.size(), jobs_of(words), [&](std::size_t k) { run_row(sweep, sweep.rows[k]); });
    for (const SweepRow &row : sweep.rows) {
        if (row.trial.refusal.refused()) {
            refuse(name_of(sweep, row), row.trial.refusal);
        }
    }
    bool missing = false;
    std::uint64_t fewest = UINT64_MAX;
    for (const SweepRow &row : sweep.rows) {
        warn_of(name_of(sweep, row), row.trial);
        missing = missing || !row.trial.missing.comparable();
        fewest = std::min(fewest, row.trial.missing.fewest_entries);
    }
    warn_how_to_compare(missing, fewest);
    if (words.has("--page")) {
        std::vector<std::string> inputs = words.values("--schedule");
        inputs.push_back(words.others()[0]);
        if (words.value("--page", "") == "-") {
            return sweep_page(sweep);
        }
        write_bytes(words.value("--page", ""), sweep_page(sweep), inputs);
    }
    return printed(words, sweep_table(sweep));
}

} // namespace

std::string name_of(const Sweep &sweep, const SweepRow &row) {
    std::string name = sweep.schedules.size() > 1 ? sweep.schedules[row.schedule].name() + ", " : "";
    for (std::size_t a = 0; a < row.thresholds.size(); ++a) {
        name += (a == 0 ? "threshold " : ", ") + std::to_string(row.thresholds[a]) + (sweep.axes.size() > 1 ? " of " + sweep.axes[a].name : "");
    }
    return name;
}

namespace {

std::uint64_t longest_tenure(const Axis &axis, const Trial &trial) {
    std::uint64_t longest = 0;
    for (const std::uint32_t domain : axis.domains) {
        longest = std::max(longest, trial.longest[domain]);
    }
    return longest;
}

} // namespace

Table sweep_table(const Sweep &sweep) {
    Table table;
    const bool several = sweep.axes.size() > 1;
    if (sweep.schedules.size() > 1) {
        table.column("schedule", Side::left);
    }
    for (const Axis &axis : sweep.axes) {
        table.column(several ? "threshold of " + axis.name : "threshold");
    }
    const Shown shown{sweep.times.has_value(), std::any_of(sweep.schedules.begin(), sweep.schedules.end(), [](const Schedule &s) { return s.has_seeds(); }),
                      sweep.hold.has_value()};
    add_trial_columns(table, shown);
    for (const Axis &axis : sweep.axes) {
        table.column(several ? "longest tenure of " + axis.name : "longest tenure");
    }
    table.column("allowance");
    table.column("comparable", Side::left);
    for (const SweepRow &row : sweep.rows) {
        table.row();
        if (sweep.schedules.size() > 1) {
            table.cell(sweep.schedules[row.schedule].name());
        }
        for (const std::uint16_t threshold : row.thresholds) {
            table.cell(threshold);
        }
        const bool comparable = row.trial.missing.comparable();
        add_trial(table, row.trial, shown);
        for (const Axis &axis : sweep.axes) {
            table.cell(longest_tenure(axis, row.trial));
        }
        table.cell(capped(row.trial.allowance), Value(row.trial.allowance));
        table.cell(comparable ? "yes" : "NO", Value::of_truth(comparable));
        if (!comparable) {
            table.mark();
        }
    }
    return table;
}

Command sweep_command() {
    return {"sweep",
            "tries thresholds, one row for each",
            "usage: hmcs sweep TREE (--level L | --domain D[,D..]).. --thresholds T [--schedule S ..]\n"
            "                       [--times P1,P2,P3 [--hold H]] [--jobs N] [--csv | --json] [--page OUT.html] [--ticket]\n"
            "Runs schedules on a tree with one threshold after another, each from a fresh lock, and prints a\n"
            "row for each: entries and how they split (root, crossed, passed), stays, the largest and the mean\n"
            "wait of all threads in entries of other threads, the longest tenure of the domains, and the largest\n"
            "allowance of the root's members: how many entries the threads under one may make while another\n"
            "waits. TREE and S are as for `hmcs make`. Without --schedule, a lock file's own schedule runs, or\n"
            "busy:65536:1.\n"
            "\n"
            "Waits cover only attempts that ended. So each row also shows how many threads never entered, the\n"
            "entries of the thread that entered least, how many attempts were still under way, and the longest\n"
            "of these so far. The longest possible wait is proved for every schedule as long as nobody stalls. A\n"
            "row is marked NO if a thread never entered or an attempt under way has waited longer than all that\n"
            "ended: its waits cannot be compared with other rows.\n"
            "\n"
            "  --level L          all domains of a level get the threshold; the root is level 1\n"
            "  --domain D[,D..]   these domains get it. If --level or --domain is repeated, every combination is\n"
            "                     tried\n"
            "  --thresholds T     which thresholds: 1,2,5 or 1..8 or 1..64x2 (1, 2, 4, .. 64); once for all\n"
            "                     groups of domains, or once for each, in order\n"
            "  --schedule S       the schedule to run; if repeated, each threshold has a row for each. A seed may\n"
            "                     be a range: busy:65536:1..20 runs twenty schedules, adds up their counts and\n"
            "                     shows the worst of the largest waits, and the least next to it\n"
            "  --each-seed        one row for each seed instead\n"
            "  --times P1,P2,P3   how long it takes to pass the lock on at home, between homes and across the root:\n"
            "                     adds the time per entry, (P1*passed + P2*crossed + P3*root) / entries, and in an\n"
            "                     even tree of two or three levels the time by `hmcs rate`; if all threads are\n"
            "                     busy, the two should agree\n"
            "  --hold H           how long a thread keeps the lock: adds an upper bound of the longest possible wait\n"
            "                     in time, (wait + 1) * (H + the longest passing time). This is arithmetic on your\n"
            "                     own figures, not proved\n"
            "  --jobs N           how many runs at a time (default: the number of processors)\n"
            "  --csv, --json      for programs\n"
            "  --page OUT.html    also writes a page with charts\n"
            "  --ticket           the root of a tree given as text is a ticket lock\n"
            "\n"
            "Here the sockets of a two-socket machine are level 2. With a larger threshold the lock moves\n"
            "between sockets less often, and a thread may wait longer:\n"
            "\n"
            "  hmcs sweep '(16(4(#4) 4(#4)) 16(4(#4) 4(#4)))' --level 2 --thresholds 1..64x2\n",
            with_table_options({{"--domain", true},
                                {"--level", true},
                                {"--thresholds", true},
                                {"--schedule", true},
                                {"--each-seed", false},
                                {"--times", true},
                                {"--hold", true},
                                {"--jobs", true},
                                {"--page", true},
                                {"--ticket", false}}),
            1,
            1,
            sweep};
}

} // namespace tool
