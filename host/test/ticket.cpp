// A ticket lock at the root, as a host uses it: the kind of root, the start, its three places, what 10 refuses, and the lock file.
#include "check.hpp"
#include "hmcs.hpp"
#include "trees.hpp"

#include <cstdio>
#include <cstring>
#include <memory>
#include <string>
#include <type_traits>
#include <vector>

using hmcs::same;

namespace {

// A kind of root does not convert to a tree.
static_assert(!std::is_convertible_v<hmcs::RootKind, hmcs::Tree> && std::is_constructible_v<hmcs::Tree, hmcs::RootKind>);

// A tree has a queue root by default; every nonzero number means a ticket root.
void kinds_of_root() {
    CHECK(hmcs::Tree().root() == hmcs::RootKind::queue && hmcs::Tree().words().ticket_root == 0);
    CHECK(hmcs::Tree(hmcs::RootKind::queue).words().ticket_root == 0);
    CHECK(hmcs::Tree(hmcs::RootKind::ticket).root() == hmcs::RootKind::ticket);
    CHECK(hmcs::read_tree("(#1)").tree.root() == hmcs::RootKind::queue && hmcs::read_tree("(#1)").tree.words().ticket_root == 0);
    for (const std::uint32_t number : {1u, 2u, 255u, 256u, 65536u, 0x80000000u, 0xffffffffu}) {
        hmcs_tree words = root_alone(hmcs::RootKind::queue, 2).words();
        words.ticket_root = number;
        CHECK(hmcs::Tree::of(words).root() == hmcs::RootKind::ticket);
        hmcs::Lock lock(hmcs::Tree::of(words));
        CHECK(lock.accepted() && lock.step(0).kind == hmcs::Kind::root_entry && lock.state().ticket == 1);
    }
}

// Both counters are the start; it is 0 at a queue root and in a refused call, which in place leaves the state unchanged.
void starts() {
    hmcs_tree tree = two_domains(hmcs::RootKind::ticket).words();
    const hmcs_state zero{};
    for (const std::uint16_t start : {0, 1, 255, 256, 65534, 65535}) {
        hmcs_state wanted = zero;
        wanted.ticket = wanted.grant = start;
        hmcs_fresh_reply fresh = hmcs_fresh(tree, start);
        CHECK(fresh.number == 0 && fresh.place == 0 && same(fresh.state, wanted));
        hmcs_state kept;
        std::memset(&kept, 0x5a, sizeof kept);
        CHECK(hmcs_fresh_in_place(tree, &kept, start).number == 0 && same(kept, wanted));
        CHECK(same(hmcs::Lock(two_domains(hmcs::RootKind::ticket), start).state(), wanted));
        CHECK(same(hmcs_fresh(two_domains(hmcs::RootKind::queue).words(), start).state, zero));
        CHECK(same(hmcs::Lock(two_domains(hmcs::RootKind::queue), start).state(), zero));
        hmcs_tree bad = tree;
        bad.thresholds[2] = 0;
        fresh = hmcs_fresh(bad, start);
        CHECK(fresh.number == HMCS_NO_THRESHOLD && fresh.place == 2 && same(fresh.state, zero));
        CHECK(hmcs_fresh_in_place(bad, &kept, start).number == HMCS_NO_THRESHOLD && same(kept, wanted));
    }
}

// Three threads at home at the root, from 65,535: one enters, two watch, and the raises reach their tickets in order.
void three_draws() {
    hmcs::Lock lock(root_alone(hmcs::RootKind::ticket, 3), 65535);
    hmcs::StepResult step = lock.step(0);
    CHECK(step.accepted() && step.kind == hmcs::Kind::root_entry && step.domain == 0);
    CHECK(lock.step(1).kind == hmcs::Kind::other_move && lock.step(2).kind == hmcs::Kind::other_move);
    CHECK(lock.state().ticket == 2 && lock.state().grant == 65535);
    CHECK(lock.state().statuses[0] == 65535 && lock.state().statuses[1] == 0 && lock.state().statuses[2] == 1);
    for (int i = 1; i < 3; ++i) {
        const hmcs::Place place = hmcs::place(lock.state(), i);
        CHECK(place.row == HMCS_ROW_WATCH && place.domain == 0 && place.peer == 0 && place.word == 0);
        CHECK(lock.step(static_cast<std::uint32_t>(i)).kind == hmcs::Kind::stay);
    }
    CHECK(lock.step(0).kind == hmcs::Kind::leaving && lock.state().places.rows[0] == HMCS_ROW_RAISE);
    CHECK(lock.step(0).kind == hmcs::Kind::other_move && lock.state().grant == 0 && lock.state().places.rows[0] == HMCS_ROW_IDLE);
    CHECK(lock.step(2).kind == hmcs::Kind::stay && lock.step(1).kind == hmcs::Kind::root_entry);
    const hmcs::RunResult run = lock.run({1, 1, 2});
    CHECK(run.accepted() && run.counts.root == 1 && run.trace == (std::vector<std::uint16_t>{2}));
    CHECK(lock.state().ticket == 2 && lock.state().grant == 1 && lock.holder() == std::optional<std::uint16_t>(2));
}

// Below a ticket root: a draw for the domain, a pass at home, a raise, and then the home is released.
void two_levels() {
    hmcs::Lock lock(two_domains(hmcs::RootKind::ticket), 7);
    const std::vector<std::uint16_t> schedule = {0, 0, 0, 1, 1, 1, 1, 0, 0, 0, 1, 1, 1, 1, 1, 1};
    const hmcs::RunResult run = lock.run(schedule);
    CHECK(run.accepted() && run.counts.steps == 16 && run.counts.entries == 2 && run.counts.stays == 1);
    CHECK(run.counts.root == 1 && run.counts.passed == 1 && run.counts.crossed == 0);
    CHECK(lock.state().ticket == 8 && lock.state().grant == 8 && lock.state().statuses[257] == 7 && lock.state().tails[0] == 0);
    hmcs::Lock other(two_domains(hmcs::RootKind::ticket), 7);
    for (const std::uint16_t i : schedule) {
        const hmcs::Place before = hmcs::place(other.state(), i);
        const hmcs::StepResult step = other.step(i);
        const bool at_home = before.row == HMCS_ROW_IDLE || before.row == HMCS_ROW_INSIDE;
        CHECK(step.accepted() && step.domain == (at_home ? 1u : before.domain));
    }
    CHECK(same(lock.state(), other.state()));
}

bool refused(const hmcs::Tree &tree, const hmcs_state &state) {
    const hmcs_step_reply step = hmcs_step(tree.words(), state, 0);
    auto kept = std::make_unique<hmcs_state>(state);
    const hmcs_step_answer answer = hmcs_step_in_place(tree.words(), kept.get(), 0);
    CHECK(step.number == answer.number && step.place == 0 && answer.place == 0 && same(step.state, *kept));
    CHECK(step.number == 0 || (step.kind == 0 && step.domain == 0 && same(step.state, state)));
    return step.number == HMCS_BAD_STATE;
}

// What 10 refuses because of the kind of root, each in a state that the other kind accepts or that is one word away from accepted.
void not_well_formed() {
    const hmcs::Tree queue = two_domains(hmcs::RootKind::queue);
    const hmcs::Tree ticket = two_domains(hmcs::RootKind::ticket);
    const hmcs_state zero{};
    for (const std::uint8_t row : {HMCS_ROW_DRAW, HMCS_ROW_WATCH, HMCS_ROW_RAISE}) {
        hmcs_state state = zero;
        state.places.rows[0] = row;
        CHECK(refused(queue, state) && !refused(ticket, state));
        state.places.domains[0] = 1;
        CHECK(refused(queue, state) && refused(ticket, state));
    }
    for (const std::uint8_t row : {HMCS_ROW_PREP, HMCS_ROW_SWAP, HMCS_ROW_LINK, HMCS_ROW_WAIT, HMCS_ROW_HELP, HMCS_ROW_CAS, HMCS_ROW_LINGER, HMCS_ROW_GRANT}) {
        hmcs_state state = zero;
        const bool has_peer = row == HMCS_ROW_LINK || row == HMCS_ROW_GRANT;
        state.places.rows[0] = row;
        state.places.peers[0] = has_peer ? 258 : 0;
        CHECK(!refused(queue, state) && refused(ticket, state));
        state.places.domains[0] = 1;
        state.places.peers[0] = has_peer ? 1 : 0;
        CHECK(!refused(queue, state) && !refused(ticket, state));
    }
    hmcs_state tail = zero;
    tail.tails[0] = 258;
    CHECK(!refused(queue, tail) && refused(ticket, tail));
    hmcs_state watched = zero;
    watched.places.rows[2] = HMCS_ROW_WATCH;
    watched.statuses[258] = 65535;
    CHECK(!refused(ticket, watched));
    watched.statuses[258] = 65536;
    CHECK(refused(ticket, watched));
    watched.places.rows[2] = HMCS_ROW_RAISE;
    CHECK(!refused(ticket, watched));
    for (int counter = 0; counter < 2; ++counter) {
        hmcs_state counters = zero;
        (counter == 0 ? counters.ticket : counters.grant) = 65535;
        CHECK(refused(queue, counters) && !refused(ticket, counters));
    }
}

// A given state with one ticket for two: by the table, one raise lets both in.
void one_ticket_for_two() {
    const hmcs::Tree tree = root_alone(hmcs::RootKind::ticket, 3);
    hmcs_state state{};
    state.ticket = 40000;
    state.grant = 65535;
    state.places.rows[0] = HMCS_ROW_RAISE;
    state.places.rows[1] = state.places.rows[2] = HMCS_ROW_WATCH;
    const std::uint16_t schedule[4] = {1, 0, 1, 2};
    std::uint16_t trace[4] = {9, 9, 9, 9};
    const hmcs_run_reply run = hmcs_run(tree.words(), state, schedule, 4, trace, 4);
    CHECK(run.number == 0 && run.stays == 1 && run.root == 2 && run.entries == 2 && trace[0] == 1 && trace[1] == 2 && trace[2] == 9);
    CHECK(run.state.ticket == 40000 && run.state.grant == 0);
}

// 128 in the first byte of a lock file, the rest being the number of domains.
void files() {
    const hmcs::FileResult file = hmcs::run_file({129, 2, 0, 0, 0, 0, 0, 1, 0, 1, 0, 1, 0, 1, 0, 0, 0, 0, 0, 1, 0});
    CHECK(file.accepted() && file.listing == "ok 8 2 3 2 0 0\n0\n1\n");
    CHECK(hmcs::run_file({128, 1, 0, 0}).refusal.number == HMCS_BAD_DOMAINS);
    std::vector<std::uint8_t> large(65, 0);
    large[0] = 193;
    large.insert(large.end(), {1, 0, 1, 1});
    CHECK(hmcs::run_file(large).refusal.number == HMCS_BAD_DOMAINS && hmcs::run_file(large).refusal.place == 0);
    large.pop_back();
    CHECK(hmcs::run_file(large).refusal.number == HMCS_FILE_CUT && hmcs::run_file(large).refusal.place == 68);
}

} // namespace

int main() {
    kinds_of_root();
    starts();
    three_draws();
    two_levels();
    not_well_formed();
    one_ticket_for_two();
    files();
    std::printf("ticket: %d checks, %d failures\n", checks, failures);
    return failures == 0 ? 0 : 1;
}
