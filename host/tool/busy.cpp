#include "busy.hpp"

#include "random.hpp"

namespace tool {

namespace {

// Which threads can move, updated step by step. A step changes that for its own thread and for at most one more: the one that it links itself
// to, grants or raises the grant to. Only Wait, Linger and Watch have stays.
class Movers {
  public:
    explicit Movers(const hmcs::Tree &tree) : lock_(tree), moving_(tree.words().threads, true), workers_(HMCS_RECORDS), ticket_holders_(65536) {}

    bool can_move(std::size_t thread) const { return moving_[thread]; }
    bool is_idle(std::size_t thread) const { return lock_.state().places.rows[thread] == HMCS_ROW_IDLE; }

    void step(std::uint16_t thread) {
        const hmcs::Place before = hmcs::place(lock_.state(), thread);
        if (lock_.step(thread).refused()) {
            return;
        }
        look_at(thread);
        if (before.row == HMCS_ROW_LINK || before.row == HMCS_ROW_GRANT) {
            look_at(workers_[before.peer]);
        } else if (before.row == HMCS_ROW_RAISE) {
            look_at(ticket_holders_[lock_.state().grant]);
        }
    }

  private:
    // A thread that waits in a queue or for a link is remembered by its record, and one at a ticket root by its ticket.
    void look_at(std::uint16_t thread) {
        const hmcs_state &state = lock_.state();
        const hmcs::Place place = hmcs::place(state, thread);
        const std::size_t own = record_of(thread, place.domain);
        moving_[thread] = true;
        if (place.row == HMCS_ROW_WAIT) {
            workers_[own] = thread;
            moving_[thread] = state.statuses[own] != (place.domain == 0 ? HMCS_STATUS_LOCKED : HMCS_STATUS_WAIT);
        } else if (place.row == HMCS_ROW_LINGER) {
            workers_[own] = thread;
            moving_[thread] = state.nexts[own] != 0;
        } else if (place.row == HMCS_ROW_WATCH) {
            ticket_holders_[static_cast<std::uint16_t>(state.statuses[own])] = thread;
            moving_[thread] = state.statuses[own] == state.grant;
        }
    }

    // The record that a thread uses at a domain on its path: its own at home, above that the record of the domain below.
    std::size_t record_of(std::uint16_t thread, std::uint32_t domain) const {
        std::uint32_t below = lock_.tree().homes[thread];
        if (below == domain) {
            return thread;
        }
        while (below != 0 && lock_.tree().parents[below] != domain) {
            below = lock_.tree().parents[below];
        }
        return HMCS_THREADS + below;
    }

    hmcs::Lock lock_;
    std::vector<bool> moving_;
    std::vector<std::uint16_t> workers_;        // of each record, who last waited or lingered with it
    std::vector<std::uint16_t> ticket_holders_; // of each ticket, who last watched with it
};

} // namespace

std::vector<std::uint16_t> busy_turns(const hmcs::Tree &tree, std::uint64_t count, std::uint64_t seed, std::uint64_t work) {
    Random random(seed);
    Movers movers(tree);
    std::vector<std::uint64_t> free_from(tree.words().threads); // for each thread the time at which it may be drawn
    std::vector<std::uint16_t> turns, candidates;
    for (std::uint64_t time = 0; turns.size() < count; ++time) {
        candidates.clear();
        for (std::uint16_t thread = 0; thread < free_from.size(); ++thread) {
            if (free_from[thread] <= time && movers.can_move(thread)) {
                candidates.push_back(thread);
            }
        }
        if (candidates.empty()) { // all pause
            time = *std::min_element(free_from.begin(), free_from.end()) - 1;
            continue;
        }
        const std::uint16_t thread = candidates[random.below(candidates.size())];
        movers.step(thread);
        turns.push_back(thread);
        if (work != 0 && movers.is_idle(thread)) {
            free_from[thread] = time + 1 + random.below(2 * work + 1);
        }
    }
    return turns;
}

} // namespace tool
