// `choose`: of the thresholds with which no thread can wait too long, those that pass the lock on in the least time.
#include "choose.hpp"

#include "html.hpp"
#include "parallel.hpp"
#include "tool.hpp"
#include "trees.hpp"

#include <cmath>
#include <map>

namespace tool {

namespace {

constexpr std::uint64_t most_candidates = 4000000;
constexpr double shown_step = 0.05; // a row is shown where it costs so much less than the row before

// The levels whose thresholds are chosen, each with its domains and the largest number of members of one of them.
std::vector<Level> levels_of(const Words &words, const hmcs::Tree &tree) {
    std::map<std::uint32_t, Level> found;
    for (const Domain &domain : domains_in_order(tree)) {
        if (domain.level > 1) {
            Level &level = found[domain.level];
            level.number = domain.level;
            level.domains.push_back(domain.number);
            level.members = std::max(level.members, members_of(tree, domain.number));
        }
    }
    std::vector<Level> levels;
    for (const std::string &word : words.values("--level")) {
        const auto level = found.find(static_cast<std::uint32_t>(number("--level", word, UINT32_MAX)));
        if (level == found.end()) {
            fail("--level: " + word + " is not a level below the root; the tree's are 2 to " + std::to_string(found.rbegin()->first));
        }
        levels.push_back(level->second);
        found.erase(level);
    }
    if (levels.empty()) {
        for (const auto &[number, level] : found) {
            levels.push_back(level);
        }
    }
    return levels;
}

// The expected cost of an entry of a busy lock, which only decides what is run: in every tenure of a domain below the root all entries except the first
// stay below it, and a domain of one member passes nothing on. Without times root entries count first, then crossed ones.
double expected_cost(const hmcs::Tree &tree, const std::vector<bool> &passes_on, const std::optional<hmcs::PassingTimes> &times) {
    const hmcs_tree &words = tree.words();
    const auto passes = [&](std::uint32_t domain) { return passes_on[domain] ? static_cast<double>(words.thresholds[domain]) : 1.0; };
    double root = 0, kept = 0;
    for (std::uint32_t thread = 0; thread < words.threads; ++thread) {
        double entries = 1;
        const std::uint32_t home = words.homes[thread];
        for (std::uint32_t domain = home; domain != 0; domain = words.parents[domain]) {
            entries *= passes(domain);
        }
        root += 1 / entries;
        kept += home == 0 ? 0 : 1 / passes(home);
    }
    const double crossed = kept - root, passed = words.threads - kept;
    const hmcs::PassingTimes costs = times ? *times : hmcs::PassingTimes{0, 1e-6, 1};
    return (costs.p1 * passed + costs.p2 * crossed + costs.p3 * root) / words.threads;
}

// All thresholds from 1 to the number of members of each level, and beyond it as far as the limit allows.
class Search {
  public:
    Search(const hmcs::Tree &tree, const std::vector<Level> &levels, std::uint64_t limit, const std::optional<hmcs::PassingTimes> &times)
        : tree_(tree), levels_(levels), limit_(limit), times_(times), thresholds_(levels.size(), 1) {
        for (std::uint32_t domain = 0; domain < tree.words().domains; ++domain) {
            passes_on_.push_back(members_of(tree, domain) > 1);
        }
        descend(0);
    }

    std::vector<Candidate> candidates;
    std::uint64_t smallest = UINT64_MAX; // of all longest waits that were met

  private:
    // A threshold above the number of members only makes waits longer, so the search of a level ends when it exceeds the limit.
    void descend(std::size_t level) {
        for (std::uint32_t threshold = 1; threshold <= 65535; ++threshold) {
            thresholds_[level] = static_cast<std::uint16_t>(threshold);
            const bool within = level + 1 == levels_.size() ? add() : least_below(level) <= limit_;
            if (level + 1 < levels_.size() && within) {
                descend(level + 1);
            }
            if (!within && threshold >= levels_[level].members) {
                break;
            }
            if (threshold >= levels_[level].members && threshold >= most_useful_) {
                break;
            }
        }
        thresholds_[level] = 1;
    }

    bool add() {
        const hmcs::Tree tree = with_thresholds(tree_, levels_, thresholds_);
        const std::uint64_t wait = hmcs::wait_bounds(tree).largest();
        smallest = std::min(smallest, wait);
        candidates.push_back({thresholds_, wait, expected_cost(tree, passes_on_, times_), {}});
        if (candidates.size() > most_candidates) {
            fail("choose: more than " + std::to_string(most_candidates) + " thresholds to try; name fewer levels or a smaller --max-wait");
        }
        return wait <= limit_;
    }

    // The shortest longest wait with the thresholds chosen so far and, on the levels below, the numbers of members or less.
    std::uint64_t least_below(std::size_t level) {
        std::vector<std::uint16_t> thresholds = thresholds_;
        std::uint64_t least = UINT64_MAX;
        for (const bool full : {false, true}) {
            for (std::size_t k = level + 1; k < levels_.size(); ++k) {
                thresholds[k] = full ? static_cast<std::uint16_t>(levels_[k].members) : 1;
            }
            least = std::min(least, hmcs::wait_bounds(with_thresholds(tree_, levels_, thresholds)).largest());
        }
        smallest = std::min(smallest, least);
        return least;
    }

    const hmcs::Tree &tree_;
    const std::vector<Level> &levels_;
    std::uint64_t limit_;
    const std::optional<hmcs::PassingTimes> &times_;
    std::vector<std::uint16_t> thresholds_;
    std::vector<bool> passes_on_;                       // of each domain, whether it has more than one member
    static constexpr std::uint32_t most_useful_ = 1024; // larger thresholds differ by less than a thousandth of the entries
};

bool dominates(const Candidate &a, const Candidate &b) {
    return a.thresholds != b.thresholds && std::equal(a.thresholds.begin(), a.thresholds.end(), b.thresholds.begin(), std::greater_equal<std::uint16_t>());
}

// Those of which no threshold can be raised within the limit: a larger threshold passes the lock on below it more often. They are run, except those
// expected to cost half as much again as the cheapest.
std::vector<Candidate> worth_running(std::vector<Candidate> candidates) {
    constexpr std::size_t most_runs = 120;
    std::sort(candidates.begin(), candidates.end(), [](const Candidate &a, const Candidate &b) { return a.expected < b.expected; });
    std::vector<Candidate> kept;
    for (const Candidate &candidate : candidates) {
        const bool is_cheap = kept.empty() || candidate.expected <= 1.5 * kept.front().expected;
        const bool is_beaten = std::any_of(kept.begin(), kept.end(), [&](const Candidate &other) { return dominates(other, candidate); });
        if (is_cheap && !is_beaten && kept.size() < most_runs) {
            kept.push_back(candidate);
        }
    }
    return kept;
}

// Those that no other is expected to beat in both wait and cost, by their waits; each costs less than the one before, by a share of it.
std::vector<Candidate> unbeaten(std::vector<Candidate> candidates, double share) {
    std::sort(candidates.begin(), candidates.end(), [](const Candidate &a, const Candidate &b) {
        return a.possible_wait != b.possible_wait ? a.possible_wait < b.possible_wait : a.expected < b.expected;
    });
    std::vector<Candidate> kept;
    for (const Candidate &candidate : candidates) {
        if (kept.empty() || candidate.expected < (1 - share) * kept.back().expected) {
            kept.push_back(candidate);
        }
    }
    return kept;
}

// The comparable runs that no other beats in both measured wait and cost, ordered by wait; the last costs least. Of runs with nearly the same cost
// the first is kept, and the last one always.
std::vector<Candidate> measured_best(std::vector<Candidate> tried) {
    std::sort(tried.begin(), tried.end(), [](const Candidate &a, const Candidate &b) {
        return a.possible_wait != b.possible_wait ? a.possible_wait < b.possible_wait : cost_of(a.trial) < cost_of(b.trial);
    });
    std::vector<Candidate> best, kept;
    for (const Candidate &candidate : tried) {
        if (candidate.trial.missing.comparable() && (best.empty() || cost_of(candidate.trial) < cost_of(best.back().trial))) {
            best.push_back(candidate);
        }
    }
    for (std::size_t k = 0; k < best.size(); ++k) {
        if (k + 1 == best.size() || kept.empty() || cost_of(best[k].trial) < (1 - shown_step) * cost_of(kept.back().trial)) {
            kept.push_back(best[k]);
        }
    }
    return kept;
}

Choice choose_for(const Words &words, const Input &input) {
    Choice choice;
    choice.tree = input.tree;
    choice.limit = number("--max-wait", words.value("--max-wait", ""), UINT64_MAX - 1);
    choice.times = times_of(words);
    choice.hold = hold_of(words, choice.times);
    choice.levels = levels_of(words, input.tree);
    choice.schedule = words.value("--schedule", usual_schedule);
    const std::uint64_t searched = choice.limit > UINT64_MAX / 4 ? choice.limit : 2 * choice.limit; // to say what a longer wait would bring
    const Search search(choice.tree, choice.levels, searched, choice.times);
    std::vector<Candidate> within, beyond;
    for (const Candidate &candidate : search.candidates) {
        (candidate.possible_wait <= choice.limit ? within : beyond).push_back(candidate);
    }
    if (within.empty()) {
        fail("choose: no thresholds keep every wait to " + std::to_string(choice.limit) + " entries; the smallest longest wait of this tree is " +
             std::to_string(search.smallest));
    }
    std::vector<Candidate> tried = worth_running(within), above = unbeaten(beyond, shown_step);
    for (const Candidate &candidate : unbeaten(within, 0)) {
        const auto same = [&](const Candidate &other) { return other.thresholds == candidate.thresholds; };
        if (std::none_of(tried.begin(), tried.end(), same)) {
            tried.push_back(candidate);
        }
    }
    above.resize(std::min<std::size_t>(above.size(), 3));
    const Schedule schedule(choice.schedule);
    run_each(tried.size() + above.size(), jobs_of(words), [&](std::size_t k) {
        Candidate &one = k < tried.size() ? tried[k] : above[k - tried.size()];
        one.trial = try_tree(with_thresholds(choice.tree, choice.levels, one.thresholds), schedule, choice.times, choice.hold);
    });
    choice.tried = measured_best(tried);
    if (choice.tried.empty()) {
        fail("choose: on " + choice.schedule + " no run lets every thread enter; give it more turns");
    }
    choice.chosen = choice.tried.size() - 1;
    for (const Candidate &candidate : above) {
        if (cost_of(candidate.trial) < cost_of(choice.tried.back().trial)) {
            choice.above.push_back(candidate);
        }
    }
    return choice;
}

// A tree with only the root has no threshold to choose and a fixed wait.
std::string nothing_to_choose(const Words &words, const hmcs::Tree &tree) {
    const std::uint64_t limit = number("--max-wait", words.value("--max-wait", ""), UINT64_MAX - 1), wait = hmcs::wait_bounds(tree).largest();
    if (wait > limit) {
        fail("choose: this tree has no domain below the root, so no threshold; its longest wait is " + std::to_string(wait) + ", above " +
             std::to_string(limit));
    }
    if (words.has("--csv") || words.has("--json") || words.has("--page")) {
        fail("choose: this tree has no domain below the root, so no threshold to choose and no table");
    }
    return "This tree has no domain below the root, so there is no threshold to choose: no thread waits for more than " + std::to_string(wait) +
           " entries of others as long as nobody stalls.\n";
}

std::string choose(const Words &words) {
    if (!words.has("--max-wait")) {
        fail("choose: --max-wait N is required: how many entries of others a thread may wait for");
    }
    const Input input = read_tree(words.others()[0], words.has("--ticket"));
    if (input.tree.words().domains == 1) {
        return nothing_to_choose(words, input.tree);
    }
    const Choice choice = choose_for(words, input);
    if (words.has("--page")) {
        const std::string said = write_bytes(words.value("--page", ""), choice_page(choice), words.others());
        if (words.value("--page", "") == "-") {
            return said;
        }
    }
    const bool for_people = !words.has("--csv") && !words.has("--json");
    return for_people ? choice_text(choice) : printed(words, choice_table(choice));
}

} // namespace

hmcs::Tree with_thresholds(const hmcs::Tree &tree, const std::vector<Level> &levels, const std::vector<std::uint16_t> &thresholds) {
    hmcs_tree words = tree.words();
    for (std::size_t k = 0; k < levels.size(); ++k) {
        for (const std::uint32_t domain : levels[k].domains) {
            words.thresholds[domain] = thresholds[k];
        }
    }
    return hmcs::Tree::of(words);
}

double cost_of(const Trial &trial) {
    if (trial.time) {
        return *trial.time;
    }
    const double entries = std::max<double>(1, static_cast<double>(trial.counts.entries));
    return (static_cast<double>(trial.counts.root) + 1e-6 * static_cast<double>(trial.counts.crossed)) / entries;
}

Command choose_command() {
    return {"choose",
            "chooses thresholds with which nobody waits too long",
            "usage: hmcs choose TREE --max-wait N [--times P1,P2,P3 [--hold H]] [--level L ..] [--schedule S]\n"
            "                        [--csv | --json] [--page OUT.html] [--ticket]\n"
            "Finds a threshold for each level with which no thread waits for more than N entries of others. This\n"
            "is proved for every schedule as long as nobody stalls. Of these thresholds it chooses those with\n"
            "the least time per entry on the schedule S (default busy:65536:1), or without --times those with\n"
            "the fewest root entries, then the fewest crossed entries. Prints the choice, what the next ones\n"
            "would cost, and a row for each choice that nothing else beats and that costs a twentieth less than\n"
            "the row before.\n"
            "\n"
            "  --max-wait N      how many entries of others a thread may wait for\n"
            "  --times P1,P2,P3  how long it takes to pass the lock on at home, between homes and across the root\n"
            "  --hold H          how long a thread keeps the lock: adds an upper bound of the longest wait in time\n"
            "  --level L         chooses only for these levels and keeps the thresholds of the others\n"
            "  --schedule S      the schedule to run\n"
            "  --jobs N          how many runs at a time (default: the number of processors)\n"
            "  --csv, --json     the table for programs, with every column of `sweep`\n"
            "  --page OUT.html   also writes a page, with every column\n"
            "  --ticket          the root of a tree given as text is a ticket lock\n"
            "\n"
            "  hmcs choose \"$(hmcs machine)\" --max-wait 200 --times 0.05,0.2,1\n",
            with_table_options({{"--max-wait", true},
                                {"--times", true},
                                {"--hold", true},
                                {"--level", true},
                                {"--schedule", true},
                                {"--jobs", true},
                                {"--page", true},
                                {"--ticket", false}}),
            1,
            1,
            choose};
}

} // namespace tool
