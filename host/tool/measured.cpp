#include "measured.hpp"
#include "tool.hpp"

#include <numeric>

namespace tool {

std::string Missing::why_not() const {
    if (never_entered != 0) {
        return std::to_string(never_entered) + " of " + std::to_string(threads) + " threads never entered";
    }
    if (longest_under_way > largest_finished) {
        return "an attempt under way has waited for " + std::to_string(longest_under_way) + " entries, more than any that ended";
    }
    return "";
}

void warn_how_to_compare(bool missing, std::uint64_t fewest_entries) {
    const std::uint64_t few = 10; // entries of a thread, below which a mean is mostly chance
    if (!missing && fewest_entries < few) {
        warn("some thread entered only " + (fewest_entries == 1 ? std::string("once") : std::to_string(fewest_entries) + " times") + ", so mean waits say little");
    }
    if (missing || fewest_entries < few) {
        warn("give it more turns, or a schedule that wastes no turn, such as --schedule busy:65536:1");
    }
}

Missing Missing::worst(const Missing &other) const {
    Missing worse;
    worse.threads = threads;
    worse.never_entered = std::max(never_entered, other.never_entered);
    worse.fewest_entries = std::min(fewest_entries, other.fewest_entries);
    worse.under_way = std::max(under_way, other.under_way);
    worse.longest_under_way = std::max(longest_under_way, other.longest_under_way);
    worse.largest_finished = std::max(largest_finished, other.largest_finished);
    return worse;
}

Missing Measured::missing() const {
    std::vector<std::size_t> everybody(threads.size());
    std::iota(everybody.begin(), everybody.end(), std::size_t{0});
    return missing(everybody);
}

Missing Measured::missing(const std::vector<std::size_t> &some) const {
    Missing missing;
    missing.threads = some.size();
    missing.fewest_entries = some.empty() ? 0 : UINT64_MAX;
    for (const std::size_t thread : some) {
        const std::uint64_t entries = threads[thread].attempts; // from a fresh lock a thread's entries are its finished attempts
        missing.never_entered += entries == 0 ? 1 : 0;
        missing.fewest_entries = std::min(missing.fewest_entries, entries);
        missing.largest_finished = std::max(missing.largest_finished, threads[thread].largest);
        if (under_way[thread] != 0) {
            ++missing.under_way;
            missing.longest_under_way = std::max(missing.longest_under_way, under_way[thread] - 1);
        }
    }
    return missing;
}

void Totals::add(const hmcs::Counts &c) { add(Totals{c.steps, c.entries, c.stays, c.root, c.passed, c.crossed}); }

void Totals::add(const Totals &c) {
    steps += c.steps;
    entries += c.entries;
    stays += c.stays;
    root += c.root;
    passed += c.passed;
    crossed += c.crossed;
}

Measured measure(const hmcs::Tree &tree, const std::vector<std::uint16_t> &turns) {
    constexpr std::size_t most = 65536; // turns of one run
    Measured measured;
    hmcs::Lock lock(tree);
    measured.refusal = lock.refusal();
    for (std::size_t from = 0; from < turns.size() && measured.refusal.accepted(); from += most) {
        const hmcs::WaitsResult part = lock.run_waits(turns.data() + from, std::min(most, turns.size() - from));
        measured.refusal = part.run.refusal;
        measured.refusal.place += part.refused() ? from : 0; // 12 and 19, which alone can refuse here, have a turn as their place
        measured.counts.add(part.run.counts);
    }
    const hmcs::WaitsSoFar waits = lock.waits();
    measured.threads = waits.threads;
    measured.all = waits.all;
    measured.under_way = waits.under_way;
    measured.state = lock.state();
    return measured;
}

} // namespace tool
