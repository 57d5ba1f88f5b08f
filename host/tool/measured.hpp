// A schedule run from a fresh lock: its counts, its waits, and which threads these leave out.
#ifndef HMCS_MEASURED_HPP
#define HMCS_MEASURED_HPP

#include "hmcs.hpp"

#include <string>
#include <vector>

namespace tool {

// The threads and attempts that the waits of a run leave out.
struct Missing {
    std::uint64_t threads = 0;
    std::uint64_t never_entered = 0;     // threads without an entry
    std::uint64_t fewest_entries = 0;    // of the thread that entered least
    std::uint64_t under_way = 0;         // attempts that had not ended
    std::uint64_t longest_under_way = 0; // of them, in entries of others so far
    std::uint64_t largest_finished = 0;  // wait of an attempt that had ended

    // Whether the waits may be compared with those of another run: every thread entered, and no attempt under way has waited longer than all
    // that ended.
    bool comparable() const { return never_entered == 0 && longest_under_way <= largest_finished; }
    // The worse of each figure of two runs of one tree.
    Missing worst(const Missing &other) const;
    // A lower bound of the largest wait, including attempts under way.
    std::uint64_t at_least() const { return std::max(largest_finished, longest_under_way); }
    // Why not, for standard error; empty if they may be compared.
    std::string why_not() const;
};

// Says on standard error which schedule would do better if a thread is missing, or if some thread entered too few times for a mean.
void warn_how_to_compare(bool missing, std::uint64_t fewest_entries);

// The counts of a schedule of any length.
struct Totals {
    std::uint64_t steps = 0, entries = 0, stays = 0, root = 0, passed = 0, crossed = 0;

    void add(const hmcs::Counts &counts);
    void add(const Totals &counts);
};

struct Measured {
    hmcs::Refusal refusal;
    Totals counts;
    std::vector<hmcs::Waits> threads;     // of each thread, its finished attempts
    hmcs::Waits all;                      // of all together
    std::vector<std::uint64_t> under_way; // of each thread 0, or one more than the others' entries since its attempt began
    hmcs_state state;                     // after the run

    Missing missing() const;
    // The same for some of the threads.
    Missing missing(const std::vector<std::size_t> &some) const;
};

// Runs a schedule from a fresh lock of the tree, as many turns at a time as the library accepts. The place of a refusal refers to the whole schedule.
Measured measure(const hmcs::Tree &tree, const std::vector<std::uint16_t> &turns);

} // namespace tool

#endif
