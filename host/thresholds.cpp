// Choosing a threshold: one tree, one schedule, four thresholds of its sockets, as a studio would compare them.
#include "hmcs.hpp"

#include <cinttypes>
#include <cstdio>

namespace {

// Random turns of 16 threads, the same everywhere.
std::vector<std::uint16_t> random_turns(std::size_t count) {
    std::vector<std::uint16_t> turns;
    std::uint64_t word = 1;
    for (std::size_t k = 0; k < count; ++k) {
        word = word * 6364136223846793005u + 1442695040888963407u;
        turns.push_back(static_cast<std::uint16_t>(word >> 60));
    }
    return turns;
}

// Two sockets of two groups of cores, four threads in each group, at most four of which hold the lock one after another.
hmcs::Tree two_sockets(std::uint16_t threshold) {
    hmcs::Tree tree;
    for (int socket = 0; socket < 2; ++socket) {
        const std::uint32_t d = tree.add_domain(0, threshold);
        for (int group = 0; group < 2; ++group) {
            const std::uint32_t home = tree.add_domain(d, 4);
            for (int thread = 0; thread < 4; ++thread) {
                tree.add_thread(home);
            }
        }
    }
    return tree;
}

} // namespace

int main() {
    const std::vector<std::uint16_t> turns = random_turns(65536);
    std::puts("threshold  entries  root  crossed  passed  stays  largest wait  mean wait");
    for (const std::uint16_t threshold : {1, 4, 16, 64}) {
        hmcs::Lock lock(two_sockets(threshold));
        const hmcs::WaitsResult result = lock.run_waits(turns);
        if (result.refused()) {
            std::printf("refused: %s\n", result.run.refusal.text());
            return 1;
        }
        const hmcs::Counts &c = result.run.counts;
        std::printf("%9u  %7u  %4u  %7u  %6u  %5u  %12" PRIu64 "  %" PRIu64 "/%" PRIu64 " = %.2f\n", static_cast<unsigned>(threshold), c.entries, c.root,
                    c.crossed, c.passed, c.stays, result.all.largest, result.all.numerator, result.all.denominator,
                    static_cast<double>(result.all.total) / static_cast<double>(result.all.attempts));
    }
    return 0;
}
