// A run with kinds, and the check of a saved state, as a host uses them: rows by hand, comparison with single steps, refusals, and that nothing outside
// the buffers is touched.
#include "check.hpp"
#include "guarded.hpp"
#include "hmcs.hpp"
#include "trees.hpp"

#include <cstdio>
#include <cstring>
#include <utility>
#include <vector>

using hmcs::same;

namespace {

using Schedule = std::vector<std::uint16_t>;
using Rows = std::vector<std::pair<std::uint32_t, std::uint32_t>>;

Rows rows_of(const hmcs::KindsResult &result) {
    Rows rows;
    for (const hmcs::StepKind &step : result.steps) {
        rows.emplace_back(static_cast<std::uint32_t>(step.kind), step.domain);
    }
    return rows;
}

// The kinds and domains of single steps, one after another.
Rows by_single_steps(hmcs::Lock &lock, const Schedule &schedule) {
    Rows rows;
    for (const std::uint16_t thread : schedule) {
        const hmcs::StepResult step = lock.step(thread);
        CHECK(step.accepted());
        rows.emplace_back(static_cast<std::uint32_t>(step.kind), step.domain);
    }
    return rows;
}

Schedule mixed(std::uint16_t threads, std::size_t length) {
    Schedule schedule;
    std::uint32_t number = 7;
    for (std::size_t k = 0; k < length; ++k) {
        number = number * 1664525 + 1013904223;
        schedule.push_back(static_cast<std::uint16_t>((number >> 16) % threads));
    }
    return schedule;
}

void wrapper() {
    // thread 0 enters through its home and the root, thread 1 waits after it, 0 passes the lock on, 1 enters
    hmcs::Lock lock(example_tree()), plain(example_tree());
    const Schedule schedule = {0, 0, 0, 0, 1, 1, 1, 1, 0, 0, 0, 1};
    const hmcs::KindsResult result = lock.run_kinds(schedule);
    CHECK(result.accepted());
    CHECK((rows_of(result) == Rows{{1, 1}, {1, 1}, {1, 0}, {2, 0}, {1, 1}, {1, 1}, {1, 1}, {0, 1}, {5, 1}, {1, 1}, {1, 1}, {3, 1}}));
    const hmcs::RunResult run = plain.run(schedule);
    CHECK(result.run.trace == run.trace && result.run.counts.entries == run.counts.entries && result.run.counts.passed == 1);
    CHECK(same(lock.state(), plain.state()));
    // single steps give the same, at both kinds of root, also from a state that is not fresh
    for (const hmcs::RootKind root : {hmcs::RootKind::queue, hmcs::RootKind::ticket}) {
        hmcs::Lock ran(two_domains(root)), stepped(two_domains(root));
        for (const std::size_t length : {0U, 1U, 500U, 3000U}) {
            const Schedule turns = mixed(3, length);
            CHECK(rows_of(ran.run_kinds(turns)) == by_single_steps(stepped, turns));
            CHECK(same(ran.state(), stepped.state()));
        }
    }
    CHECK(lock.run_kinds(Schedule{0, 3}).run.refusal.number == HMCS_BAD_ENTRY && lock.run_kinds(Schedule{3}).steps.empty());
    CHECK(lock.run_kinds(Schedule(65537, 0)).run.refusal.number == HMCS_SCHEDULE_LONG);
    CHECK(lock.run_kinds(Schedule(65536, 0)).steps.size() == 65536);
}

// The example between guard pages, with each length around 22 rows, and with a trace that is long enough or one too short.
void buffers() {
    const hmcs::Tree tree = example_tree();
    const hmcs_state fresh = hmcs_fresh(tree.words(), 0).state;
    hmcs::Lock stepped(tree);
    const Rows wanted = by_single_steps(stepped, schedule22);
    for (bool at_end : {false, true}) {
        for (const std::size_t room : {0U, 1U, 22U, 43U, 44U, 45U, 47U}) {
            for (std::size_t length : {schedule22.size() - 1, schedule22.size()}) {
                Guarded schedule(schedule22.size() * 2, at_end), trace(length * 2, at_end), rows(room * 2, at_end);
                std::memcpy(schedule.as<void>(), schedule22.data(), schedule22.size() * 2);
                std::memset(trace.as<void>(), 0x33, length * 2);
                std::memset(rows.as<void>(), 0x33, room * 2);
                const hmcs_kinds_reply r = hmcs_run_kinds(tree.words(), fresh, schedule.as<std::uint16_t>(), schedule22.size(), trace.as<std::uint16_t>(),
                                                          length, rows.as<std::uint16_t>(), room);
                const std::uint32_t number = length < schedule22.size() ? HMCS_TRACE_SHORT : room < 44 ? HMCS_KINDS_SHORT : HMCS_ACCEPTED;
                CHECK(r.number == number && r.place == 0 && r.entries == (number == 0 ? 3U : 0U) && r.rows == (number == 0 ? 22U : 0U));
                CHECK(number == 0 ? same(r.state, stepped.state()) : same(r.state, fresh));
                for (std::size_t k = 0; k < length; ++k) {
                    CHECK(trace.as<std::uint16_t>()[k] == (number == 0 && k < 3 ? k : 0x3333));
                }
                for (std::size_t k = 0; k < room; ++k) {
                    const std::uint32_t reported = k < 44 ? (k % 2 == 0 ? wanted[k / 2].first : wanted[k / 2].second) : 0;
                    CHECK(rows.as<std::uint16_t>()[k] == (number == 0 && k < 44 ? reported : 0x3333));
                }
            }
        }
    }
}

// 28 before 19.
void full_counter() {
    const hmcs::Tree tree = example_tree();
    hmcs_state state = hmcs_fresh(tree.words(), 0).state;
    state.entries[1] = HMCS_MOST_COUNTED;
    const Schedule schedule = {0, 0, 0, 0};
    std::vector<std::uint16_t> trace(4), rows(8);
    CHECK(hmcs_run_kinds(tree.words(), state, schedule.data(), 4, trace.data(), 4, rows.data(), 7).number == HMCS_KINDS_SHORT);
    const hmcs_kinds_reply full = hmcs_run_kinds(tree.words(), state, schedule.data(), 4, trace.data(), 4, rows.data(), 8);
    CHECK(full.number == HMCS_COUNTER_FULL && full.place == 3 && full.rows == 0);
}

// A saved state is accepted or refused by 10; the tree's numbers come before.
void kept() {
    const hmcs::Tree tree = example_tree();
    hmcs::Lock lock(tree);
    CHECK(hmcs::check_state(tree, lock.state()).accepted());
    CHECK(lock.run(schedule22).accepted() && hmcs::check_state(tree, lock.state()).accepted());
    CHECK(hmcs::Lock::saved(tree, lock.state()).accepted());
    hmcs_state spoilt = lock.state();
    spoilt.places.rows[255] = HMCS_ROW_INSIDE;
    CHECK(hmcs::check_state(tree, spoilt).number == HMCS_BAD_STATE && hmcs::Lock::saved(tree, spoilt).refusal().number == HMCS_BAD_STATE);
    spoilt = lock.state();
    spoilt.longest[1] = 3;
    CHECK(hmcs::check_state(tree, spoilt).number == HMCS_BAD_STATE);
    hmcs_state full = lock.state();
    full.entries[1] = HMCS_MOST_COUNTED;
    CHECK(hmcs::check_state(tree, full).accepted());
    hmcs::Tree empty = example_tree();
    empty.add_domain(0, 1);
    CHECK(hmcs::check_state(empty, spoilt).number == HMCS_EMPTY_DOMAIN && hmcs::check_state(empty, spoilt).place == 3);
    const hmcs_run_reply none = hmcs_run(empty.words(), spoilt, nullptr, 0, nullptr, 0);
    CHECK(none.number == HMCS_EMPTY_DOMAIN && none.place == 3);
}

} // namespace

int main() {
    wrapper();
    buffers();
    full_counter();
    kept();
    std::printf("kinds: %d checks, %d failures\n", checks, failures);
    return failures == 0 ? 0 : 1;
}
