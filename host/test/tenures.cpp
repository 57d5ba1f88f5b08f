// Entries, tenures and the longest tenure of each domain, as a host sees them: by hand, what 10 refuses of them, and 19 at 2^63.
#include "check.hpp"
#include "hmcs.hpp"
#include "trees.hpp"

#include <array>
#include <cstdio>
#include <memory>
#include <string>
#include <vector>

using hmcs::same;

namespace {

using Schedule = std::vector<std::uint16_t>;
using Three = std::array<std::uint64_t, 3>;

// One of the three counters of a state.
using Counter = std::uint64_t (hmcs_state::*)[HMCS_DOMAINS];
constexpr Counter counters[] = {&hmcs_state::entries, &hmcs_state::tenures, &hmcs_state::longest};

Three three(const hmcs::Lock &lock, std::uint32_t domain) {
    const hmcs::Tenures t = lock.tenures(domain);
    return {t.entries, t.tenures, t.longest};
}

// The 22 entries: domain 1 gets the root once and passes the lock from thread 0 to thread 1, domain 2 gets the root's Grant at the last entry but one.
void by_hand() {
    hmcs::Lock lock(example_tree());
    const auto run = [&lock](std::size_t from, std::size_t to) {
        for (std::size_t k = from; k < to; ++k) {
            CHECK(lock.step(schedule22[k]).accepted());
        }
    };
    run(0, 3);
    CHECK((three(lock, 1) == Three{0, 0, 0}));
    run(3, 9);
    CHECK((three(lock, 1) == Three{1, 1, 1}));
    run(9, 10); // the Check that passes: its Grant comes later
    CHECK((three(lock, 1) == Three{1, 1, 2}));
    run(10, 20);
    CHECK((three(lock, 1) == Three{2, 1, 2}) && (three(lock, 2) == Three{0, 0, 0}));
    run(20, 21);
    CHECK((three(lock, 2) == Three{0, 1, 1}));
    run(21, 22);
    CHECK((three(lock, 1) == Three{2, 1, 2}) && (three(lock, 2) == Three{1, 1, 1}));
    hmcs::Lock at_once(example_tree());
    CHECK(at_once.run(schedule22).accepted() && same(at_once.state(), lock.state()));
    hmcs::Lock waited(example_tree());
    CHECK(waited.run_waits(schedule22).accepted() && same(waited.state(), lock.state()));
    for (const std::uint32_t domain : {0U, 3U, 63U, 64U, 256U, 0xffffffffU}) {
        CHECK((three(lock, domain) == Three{0, 0, 0}));
    }
    hmcs::Tree large;
    for (int d = 0; d < 70; ++d) {
        large.add_domain(0, 1);
    }
    CHECK(hmcs::Lock(large).refused() && (three(hmcs::Lock(large), 64) == Three{0, 0, 0}));
}

// Two levels below the root, thresholds 1: the Grant of ACQUIRE_PARENT to the record of domain 3 starts its tenure, and domain 1 has its second
// when thread 1 swaps at the root for it.
void acquire_parent() {
    hmcs::Tree tree;
    const auto socket = tree.add_domain(0, 1);
    const auto first = tree.add_domain(socket, 1);
    const auto second = tree.add_domain(socket, 1);
    tree.add_thread(first);
    tree.add_thread(second);
    hmcs::Lock lock(tree);
    CHECK(lock.run({0, 0, 0, 0, 0, 0, 1, 1, 1, 1, 1, 0, 0, 0, 0, 0, 0}).accepted());
    CHECK(lock.state().places.rows[0] == HMCS_ROW_GRANT && lock.state().places.words[0] == HMCS_STATUS_ACQUIRE_PARENT &&
          lock.state().places.peers[0] == 256 + second);
    CHECK((three(lock, socket) == Three{1, 1, 1}) && (three(lock, first) == Three{1, 1, 1}) && (three(lock, second) == Three{0, 0, 0}));
    CHECK(lock.step(0).accepted() && (three(lock, second) == Three{0, 1, 1}) && (three(lock, socket) == Three{1, 1, 1}));
    CHECK(lock.run({1, 1, 1}).counts.root == 1);
    CHECK((three(lock, socket) == Three{2, 2, 1}) && (three(lock, first) == Three{1, 1, 1}) && (three(lock, second) == Three{1, 1, 1}));
}

// At a ticket root a draw that goes Inside starts a tenure, and so does the raise to a ticket, even if several hold it.
void ticket_root() {
    hmcs::Lock lock(two_domains(hmcs::RootKind::ticket), 65535);
    CHECK(lock.run({0, 0, 0, 2, 2, 2, 0, 0}).accepted());
    CHECK((three(lock, 1) == Three{1, 1, 1}) && (three(lock, 2) == Three{0, 0, 0}));
    CHECK(lock.step(0).accepted() && (three(lock, 2) == Three{0, 1, 1}));
    CHECK(lock.step(2).kind == hmcs::Kind::root_entry && (three(lock, 2) == Three{1, 1, 1}));
    hmcs_state several{};
    several.places.rows[0] = several.places.rows[1] = HMCS_ROW_WATCH;
    several.places.rows[2] = HMCS_ROW_RAISE;
    several.statuses[257] = several.statuses[258] = 1;
    hmcs::Lock handed = hmcs::Lock::saved(two_domains(hmcs::RootKind::ticket), several);
    CHECK(handed.step(2).accepted() && (three(handed, 1) == Three{0, 1, 1}) && (three(handed, 2) == Three{0, 0, 0}));
}

// A step by value and in place, a run and a run with waits all give this answer for a state, and leave their input unchanged.
std::uint32_t number_of(const hmcs_tree &tree, const hmcs_state &state) {
    const std::uint16_t schedule[1] = {0};
    std::uint16_t trace[1] = {77}, chain[3];
    std::uint64_t rows[20] = {};
    std::uint32_t place = 9, length = 9;
    const hmcs_step_reply step = hmcs_step(tree, state, 0);
    auto kept = std::make_unique<hmcs_state>(state);
    const hmcs_step_answer answer = hmcs_step_in_place(tree, kept.get(), 0);
    CHECK(step.number == answer.number && step.place == 0 && answer.place == 0 && same(step.state, *kept));
    CHECK(step.number == 0 || (step.kind == 0 && step.domain == 0 && same(step.state, state)));
    const hmcs_run_reply run = hmcs_run(tree, state, schedule, 1, trace, 1);
    CHECK(run.number == step.number && run.place == 0 && same(run.state, step.state) && run.steps == (step.number == 0 ? 1U : 0U));
    CHECK(step.number == 0 || trace[0] == 77);
    const hmcs_waits_reply waits = hmcs_run_waits(tree, state, schedule, 1, trace, 1, rows, 20);
    CHECK(waits.number == step.number && waits.place == 0 && same(waits.state, step.state));
    // a chain takes no step, so only 10 refuses it
    const bool bad = step.number == HMCS_BAD_STATE;
    CHECK(hmcs_chain(tree, state, 0, chain, 3, &place, &length) == (bad ? HMCS_BAD_STATE + 0U : 0U) && place == 0 && length == (bad ? 0U : 1U));
    return step.number;
}

// What 10 refuses: each counter of the root and of unused slots, a longest tenure above the threshold, a counter above 2^63.
void bad_counters() {
    const hmcs_tree tree = example_tree().words();
    const auto with = [&tree](Counter counter, std::size_t domain, std::uint64_t count) {
        hmcs_state state{};
        (state.*counter)[domain] = count;
        return number_of(tree, state);
    };
    for (const Counter counter : counters) {
        for (const std::size_t domain : {0, 3, 63}) {
            CHECK(with(counter, domain, 1) == HMCS_BAD_STATE);
        }
        CHECK(with(counter, 1, 1) == HMCS_ACCEPTED && with(counter, 2, HMCS_MOST_COUNTED + 1) == HMCS_BAD_STATE &&
              with(counter, 1, UINT64_MAX) == HMCS_BAD_STATE);
    }
    CHECK(with(&hmcs_state::longest, 1, 2) == HMCS_ACCEPTED && with(&hmcs_state::longest, 1, 3) == HMCS_BAD_STATE);
    CHECK(with(&hmcs_state::longest, 2, 16) == HMCS_ACCEPTED && with(&hmcs_state::longest, 2, 17) == HMCS_BAD_STATE);
    CHECK(with(&hmcs_state::entries, 1, HMCS_MOST_COUNTED) == HMCS_ACCEPTED && with(&hmcs_state::tenures, 2, HMCS_MOST_COUNTED) == HMCS_ACCEPTED);
    hmcs_state saved{};
    saved.tenures[0] = 1;
    CHECK(hmcs::Lock::saved(example_tree(), saved).refusal().number == HMCS_BAD_STATE);
}

// The 22 entries with a counter at 2^63 or just below: 19 at the position of the step that would push it past, or none.
void positions() {
    struct Case {
        Counter counter;
        std::size_t domain;
        std::uint64_t below; // this much below 2^63
        std::uint32_t place; // 22 if it is accepted
    };
    const Case cases[] = {
        {&hmcs_state::entries, 1, 0, 3},  {&hmcs_state::entries, 1, 1, 11}, {&hmcs_state::entries, 1, 2, 22}, {&hmcs_state::tenures, 1, 0, 3},
        {&hmcs_state::tenures, 1, 1, 22}, {&hmcs_state::tenures, 2, 0, 20}, {&hmcs_state::tenures, 2, 1, 22}, {&hmcs_state::entries, 2, 0, 21},
    };
    const hmcs_tree tree = example_tree().words();
    for (const Case &c : cases) {
        hmcs_state state{};
        (state.*c.counter)[c.domain] = HMCS_MOST_COUNTED - c.below;
        const bool accepted = c.place == 22;
        std::vector<std::uint16_t> trace(22, 77);
        std::vector<std::uint64_t> rows(20, 77);
        const hmcs_run_reply run = hmcs_run(tree, state, schedule22.data(), 22, trace.data(), 22);
        CHECK(run.number == (accepted ? 0U : HMCS_COUNTER_FULL + 0U) && run.place == (accepted ? 0 : c.place) && run.steps == (accepted ? 22U : 0U));
        CHECK(accepted ? (run.state.*c.counter)[c.domain] == HMCS_MOST_COUNTED : same(run.state, state) && trace == std::vector<std::uint16_t>(22, 77));
        trace.assign(22, 77);
        const hmcs_waits_reply waits = hmcs_run_waits(tree, state, schedule22.data(), 22, trace.data(), 22, rows.data(), 20);
        CHECK(waits.number == run.number && waits.place == run.place && same(waits.state, run.state));
        CHECK(accepted || (rows == std::vector<std::uint64_t>(20, 77) && trace == std::vector<std::uint16_t>(22, 77)));
        auto kept = std::make_unique<hmcs_state>(state);
        for (std::uint32_t k = 0; k < c.place; ++k) {
            CHECK(hmcs_step_in_place(tree, kept.get(), schedule22[k]).number == 0);
        }
        if (!accepted) {
            const hmcs_state before = *kept;
            const hmcs_step_answer answer = hmcs_step_in_place(tree, kept.get(), schedule22[c.place]);
            CHECK(answer.number == HMCS_COUNTER_FULL && answer.place == 0 && answer.kind == 0 && answer.domain == 0 && same(*kept, before));
        }
    }
    CHECK(std::string(hmcs_refusal_text(HMCS_COUNTER_FULL)) == "a step would push a counter past 2^63");
}

// 19 comes last: after 11 to 13 and, in a run with waits, after 18. A schedule whose last entry alone pushes a counter past the limit is refused as a whole.
void order() {
    const hmcs_tree tree = example_tree().words();
    hmcs_state state{};
    state.entries[2] = HMCS_MOST_COUNTED;
    Schedule late = schedule22;
    late.push_back(3);
    std::vector<std::uint16_t> trace(65537, 77);
    std::vector<std::uint64_t> rows(20, 77);
    CHECK(hmcs_run(tree, state, late.data(), 23, trace.data(), 22).number == HMCS_BAD_ENTRY);
    CHECK(hmcs_run(tree, state, schedule22.data(), 22, trace.data(), 21).number == HMCS_TRACE_SHORT);
    CHECK(hmcs_run_waits(tree, state, schedule22.data(), 22, trace.data(), 21, rows.data(), 19).number == HMCS_TRACE_SHORT);
    CHECK(hmcs_run_waits(tree, state, schedule22.data(), 22, trace.data(), 22, rows.data(), 19).number == HMCS_WAITS_BUFFER_SHORT);
    CHECK(hmcs_run_waits(tree, state, schedule22.data(), 22, trace.data(), 22, rows.data(), 20).number == HMCS_COUNTER_FULL);
    // threads 0, 0 .. alone: an entry of domain 1 every ten steps, so the 5,000th is at position 4999 * 10 + 3
    hmcs_state near{};
    near.entries[1] = HMCS_MOST_COUNTED - 4999;
    const Schedule one(65537, 0);
    CHECK(hmcs_run(tree, near, one.data(), 65537, trace.data(), 65537).number == HMCS_SCHEDULE_LONG);
    const hmcs_run_reply run = hmcs_run(tree, near, one.data(), 65536, trace.data(), 65536);
    CHECK(run.number == HMCS_COUNTER_FULL && run.place == 4999 * 10 + 3 && run.steps == 0 && same(run.state, near) &&
          trace == std::vector<std::uint16_t>(65537, 77));
    const hmcs_run_reply shorter = hmcs_run(tree, near, one.data(), run.place, trace.data(), 65536);
    CHECK(shorter.number == 0 && shorter.entries == 4999 && shorter.state.entries[1] == HMCS_MOST_COUNTED && shorter.state.tenures[1] == 4999);
}

} // namespace

int main() {
    by_hand();
    acquire_parent();
    ticket_root();
    bad_counters();
    positions();
    order();
    std::printf("tenures: %d checks, %d failures\n", checks, failures);
    return failures == 0 ? 0 : 1;
}
