// The C boundary as a host uses it: layouts by round trips, the specification's cases, and that nothing outside the buffers is touched.
#include "check.hpp"
#include "guarded.hpp"
#include "hmcs.hpp"
#include "trees.hpp"

#include <cstdio>
#include <cstring>
#include <memory>
#include <string>
#include <type_traits>
#include <vector>

using hmcs::same;

namespace {

std::vector<std::uint8_t> example_file() {
    std::vector<std::uint8_t> file = {0x03, 0x02, 0x02, 0x00, 0x00, 0x03, 0x00, 0x01, 0x01, 0x00, 0x01, 0x02};
    for (std::uint16_t i : schedule22) {
        file.push_back(static_cast<std::uint8_t>(i & 255));
        file.push_back(static_cast<std::uint8_t>(i >> 8));
    }
    return file;
}

// Every word of a state, each different, comes back from a refused step: the layouts agree.
void layouts() {
    auto state = std::make_unique<hmcs_state>();
    std::memset(state.get(), 0, sizeof *state);
    for (int d = 0; d < HMCS_DOMAINS; ++d) {
        state->tails[d] = static_cast<std::uint16_t>(1000 + d);
        state->entries[d] = UINT64_C(0xa1a2a3a4a5a60000) + static_cast<std::uint64_t>(d);
        state->tenures[d] = UINT64_C(0xb1b2b3b4b5b60000) + static_cast<std::uint64_t>(d);
        state->longest[d] = UINT64_C(0xc1c2c3c4c5c60000) + static_cast<std::uint64_t>(d);
    }
    for (int r = 0; r < HMCS_RECORDS; ++r) {
        state->nexts[r] = static_cast<std::uint16_t>(2000 + r);
        state->statuses[r] = UINT64_C(0x0102030405060000) + static_cast<std::uint64_t>(r);
    }
    for (int i = 0; i < HMCS_THREADS; ++i) {
        state->places.rows[i] = static_cast<std::uint8_t>(i);
        state->places.domains[i] = static_cast<std::uint8_t>(255 - i);
        state->places.peers[i] = static_cast<std::uint16_t>(3000 + i);
        state->places.words[i] = UINT64_C(0xf0e0d0c0b0a00000) + static_cast<std::uint64_t>(i);
    }
    state->ticket = 4000;
    state->grant = 5000;
    const hmcs::Tree tree = example_tree();
    const hmcs_step_reply step = hmcs_step(tree.words(), *state, 0);
    CHECK(step.number == HMCS_BAD_STATE && step.place == 0 && step.kind == 0 && step.domain == 0);
    CHECK(same(step.state, *state));
    std::uint16_t trace[1] = {77};
    const std::uint16_t schedule[1] = {0};
    const hmcs_run_reply run = hmcs_run(tree.words(), *state, schedule, 1, trace, 1);
    CHECK(run.number == HMCS_BAD_STATE && run.place == 0 && run.steps == 0 && run.entries == 0 && run.stays == 0 && run.root == 0 && run.passed == 0 &&
          run.crossed == 0);
    CHECK(same(run.state, *state) && trace[0] == 77);
    auto kept = std::make_unique<hmcs_state>(*state);
    const hmcs_step_answer answer = hmcs_step_in_place(tree.words(), kept.get(), 0);
    CHECK(answer.number == HMCS_BAD_STATE && answer.place == 0 && same(*kept, *state));
}

// The library reads the last elements of a tree's arrays at the right offsets.
void tree_layout() {
    hmcs_tree t;
    std::memset(&t, 0, sizeof t);
    t.domains = 64;
    t.threads = 256;
    for (int d = 0; d < 64; ++d)
        t.thresholds[d] = 1;
    for (int i = 0; i < 256; ++i)
        t.homes[i] = static_cast<std::uint8_t>(1 + i % 63);
    CHECK(hmcs_fresh(t, 0).number == 0);
    hmcs_tree u = t;
    u.parents[63] = 63;
    hmcs_fresh_reply r = hmcs_fresh(u, 0);
    CHECK(r.number == HMCS_BAD_PARENT && r.place == 63);
    u = t;
    u.thresholds[63] = 0;
    r = hmcs_fresh(u, 0);
    CHECK(r.number == HMCS_NO_THRESHOLD && r.place == 63);
    u = t;
    u.homes[255] = 0;
    r = hmcs_fresh(u, 0);
    CHECK(r.number == HMCS_BAD_HOME && r.place == 255);
    u = t;
    for (int i = 0; i < 256; ++i)
        u.homes[i] = static_cast<std::uint8_t>(1 + i % 62);
    r = hmcs_fresh(u, 0);
    CHECK(r.number == HMCS_EMPTY_DOMAIN && r.place == 63);
    u = t;
    u.domains = 65;
    CHECK(hmcs_fresh(u, 0).number == HMCS_BAD_DOMAINS);
    u = t;
    u.threads = 257;
    CHECK(hmcs_fresh(u, 0).number == HMCS_BAD_THREADS);
    u = t;
    u.parents[0] = 200; // the root's words are not read
    u.thresholds[0] = 0;
    CHECK(hmcs_fresh(u, 0).number == 0);
}

// By value, in place and as a run, the 22 entries lead to the same state.
void example() {
    const hmcs::Tree tree = example_tree();
    const hmcs_fresh_reply fresh = hmcs_fresh(tree.words(), 9);
    CHECK(fresh.number == 0 && fresh.place == 0);
    hmcs_state by_value = fresh.state;
    Guarded kept(sizeof(hmcs_state), true);
    hmcs_state *in_place = kept.as<hmcs_state>();
    std::memset(in_place, 0x5a, sizeof *in_place);
    const hmcs_answer made = hmcs_fresh_in_place(tree.words(), in_place, 9);
    CHECK(made.number == 0 && made.place == 0 && same(*in_place, fresh.state));
    for (std::uint16_t i : schedule22) {
        const hmcs_step_reply r = hmcs_step(tree.words(), by_value, i);
        CHECK(r.number == 0 && r.place == 0);
        by_value = r.state;
        const hmcs_step_answer a = hmcs_step_in_place(tree.words(), in_place, i);
        CHECK(a.number == 0 && a.place == 0 && same(*in_place, by_value));
    }
    for (bool at_end : {false, true}) {
        Guarded schedule(schedule22.size() * 2, at_end);
        Guarded trace(schedule22.size() * 2, at_end);
        std::memcpy(schedule.as<void>(), schedule22.data(), schedule.size());
        std::memset(trace.as<void>(), 0x77, trace.size());
        const hmcs_run_reply r = hmcs_run(tree.words(), fresh.state, schedule.as<std::uint16_t>(), 22, trace.as<std::uint16_t>(), 22);
        CHECK(r.number == 0 && r.steps == 22 && r.entries == 3 && r.stays == 1 && r.root == 2 && r.passed == 1 && r.crossed == 0);
        CHECK(same(r.state, by_value));
        const std::uint16_t *t = trace.as<std::uint16_t>();
        CHECK(t[0] == 0 && t[1] == 1 && t[2] == 2);
        for (int k = 3; k < 22; ++k)
            CHECK(t[k] == 0x7777);
        const hmcs_run_reply s = hmcs_run(tree.words(), fresh.state, schedule.as<std::uint16_t>(), 22, trace.as<std::uint16_t>(), 21);
        CHECK(s.number == HMCS_TRACE_SHORT && s.steps == 0 && same(s.state, fresh.state));
    }
    const hmcs_step_answer refused = hmcs_step_in_place(tree.words(), in_place, 3);
    CHECK(refused.number == HMCS_BAD_ENTRY && refused.place == 0 && same(*in_place, by_value));
    hmcs_tree bad = tree.words();
    bad.domains = 0;
    CHECK(hmcs_fresh_in_place(bad, in_place, 9).number == HMCS_BAD_DOMAINS && same(*in_place, by_value) && !same(by_value, fresh.state));
}

// The wrapper's run and a refused one.
void wrapper() {
    hmcs::Lock lock(example_tree());
    CHECK(lock.accepted() && !lock.holder());
    const hmcs::RunResult run = lock.run(schedule22);
    CHECK(run.accepted() && run.counts.steps == 22 && run.trace == (std::vector<std::uint16_t>{0, 1, 2}));
    CHECK(lock.holder() == std::optional<std::uint16_t>(2));
    const hmcs_state before = lock.state();
    std::vector<std::uint16_t> late = schedule22;
    late.push_back(3);
    const hmcs::RunResult refused = lock.run(late);
    CHECK(refused.refusal.number == 12 && refused.refusal.place == 22 && refused.trace.empty() && same(lock.state(), before));
    CHECK(std::string(refused.refusal.text()) == "a thread number is not below the number of threads");
    // the longest file, of the lock that enters most often: one thread at a ticket root, every third step an entry
    std::vector<std::uint8_t> longest = {129, 1, 0, 0};
    longest.resize(65536, 0);
    const hmcs::FileResult most = hmcs::run_file(longest);
    CHECK(most.accepted() && most.listing.substr(0, 15) == "ok 32766 10922 " && most.listing.size() < HMCS_LISTING_ROOM);
    const hmcs::FileResult file = hmcs::run_file(example_file());
    CHECK(file.accepted() && file.listing == "ok 22 3 1 2 1 0\n0\n1\n2\n");
}

// A saved state: accepted if it is well formed, otherwise refused by 10; the tree is tested first.
void saved_states() {
    hmcs::Lock lock(example_tree());
    CHECK(lock.run({0, 0, 0, 0, 1, 1, 1}).accepted());
    hmcs_state kept;
    std::memset(&kept, 0x5A, sizeof kept); // padding that is not the lock's
    const hmcs_state now = lock.state();
    std::memcpy(kept.tails, now.tails, sizeof kept.tails);
    std::memcpy(kept.nexts, now.nexts, sizeof kept.nexts);
    std::memcpy(kept.statuses, now.statuses, sizeof kept.statuses);
    for (int i = 0; i < HMCS_THREADS; ++i) {
        kept.places.rows[i] = now.places.rows[i];
        kept.places.domains[i] = now.places.domains[i];
        kept.places.peers[i] = now.places.peers[i];
        kept.places.words[i] = now.places.words[i];
    }
    kept.ticket = now.ticket;
    kept.grant = now.grant;
    std::memcpy(kept.entries, now.entries, sizeof kept.entries);
    std::memcpy(kept.tenures, now.tenures, sizeof kept.tenures);
    std::memcpy(kept.longest, now.longest, sizeof kept.longest);
    CHECK(same(kept, now));
    for (std::uint64_t *count : {&kept.entries[63], &kept.tenures[63], &kept.longest[63]}) {
        *count = 1;
        CHECK(!same(kept, now));
        *count = 0;
    }
    hmcs::Lock again = hmcs::Lock::saved(example_tree(), kept);
    CHECK(again.accepted() && same(again.state(), lock.state()));
    CHECK(again.step(1).kind == lock.step(1).kind && same(again.state(), lock.state()));

    hmcs_state spoilt = kept;
    spoilt.places.rows[0] = HMCS_ROW_CHECK;
    spoilt.places.domains[0] = 0;
    CHECK(!same(spoilt, kept));
    hmcs::Lock refused = hmcs::Lock::saved(example_tree(), spoilt);
    CHECK(refused.refused() && refused.refusal().number == HMCS_BAD_STATE && same(refused.state(), spoilt));
    CHECK(refused.step(1).refusal.number == HMCS_BAD_STATE && same(refused.state(), spoilt));
    CHECK(hmcs::Lock::saved(hmcs::Tree(), kept).refusal().number == HMCS_BAD_THREADS);
}

// A result has accepted() and refused() and is not a bool, so nobody can read it the wrong way round.
static_assert(!std::is_convertible_v<hmcs::StepResult, bool> && !std::is_constructible_v<bool, hmcs::StepResult>);
static_assert(!std::is_constructible_v<bool, hmcs::Refusal> && !std::is_constructible_v<bool, hmcs::Lock>);

// The file call between guard pages, with each length of output around the listing's.
void files() {
    const std::vector<std::uint8_t> bytes = example_file();
    const std::string listing = "ok 22 3 1 2 1 0\n0\n1\n2\n";
    for (bool at_end : {false, true}) {
        for (std::size_t room = listing.size() - 2; room <= listing.size() + 2; ++room) {
            Guarded file(bytes.size(), at_end);
            Guarded output(room, at_end);
            std::memcpy(file.as<void>(), bytes.data(), bytes.size());
            std::memset(output.as<void>(), 0x33, room);
            std::uint32_t place = 9, length = 9;
            const std::uint32_t number = hmcs_run_file(file.as<std::uint8_t>(), file.size(), output.as<std::uint8_t>(), room, &place, &length);
            const bool fits = listing.size() <= room;
            CHECK(number == (fits ? 0u : static_cast<std::uint32_t>(HMCS_OUTPUT_SHORT)) && place == 0);
            CHECK(length == (fits ? listing.size() : 0));
            for (std::size_t k = 0; k < room; ++k) {
                const unsigned char wanted = fits && k < listing.size() ? static_cast<unsigned char>(listing[k]) : 0x33;
                CHECK(output.as<unsigned char>()[k] == wanted);
            }
        }
        for (std::size_t cut = 0; cut < bytes.size(); ++cut) {
            Guarded file(cut, at_end);
            Guarded output(64, at_end);
            if (cut != 0)
                std::memcpy(file.as<void>(), bytes.data(), cut);
            std::uint32_t place = 9, length = 9;
            const std::uint32_t number = hmcs_run_file(file.as<std::uint8_t>(), cut, output.as<std::uint8_t>(), 64, &place, &length);
            CHECK(number == 0 || (number == HMCS_FILE_CUT && place == cut && length == 0));
        }
    }
    Guarded longest(65537, true);
    std::uint32_t place = 9, length = 9;
    CHECK(hmcs_run_file(longest.as<std::uint8_t>(), 65537, nullptr, 0, &place, &length) == HMCS_FILE_TOO_LONG && place == 0 && length == 0);
}

// Numbers that do not fit a word are refused, not truncated.
void wide_numbers() {
    hmcs::Tree parent;
    parent.add_domain(256, 1);
    parent.add_thread(1);
    CHECK(hmcs::Lock(parent).refusal().number == HMCS_BAD_PARENT && hmcs::Lock(parent).refusal().place == 1);
    hmcs::Tree home;
    home.add_domain(0, 1);
    home.add_thread(257);
    CHECK(hmcs::Lock(home).refusal().number == HMCS_BAD_HOME && hmcs::Lock(home).refusal().place == 0);
    hmcs::Lock lock(example_tree());
    CHECK(lock.step(65536).refusal.number == HMCS_BAD_ENTRY);
    CHECK(lock.run(std::vector<std::uint16_t>(65537, 0)).refusal.number == HMCS_SCHEDULE_LONG);
    CHECK(lock.run(std::vector<std::uint16_t>(65536, 0)).accepted());
}

// A null pointer with length 0 is an empty slice.
void null_pointers() {
    std::uint32_t place = 9, length = 9;
    CHECK(hmcs_run_file(nullptr, 0, nullptr, 0, &place, &length) == HMCS_FILE_CUT && place == 0 && length == 0);
    const hmcs::Tree tree = example_tree();
    const hmcs_fresh_reply fresh = hmcs_fresh(tree.words(), 9);
    const hmcs_run_reply run = hmcs_run(tree.words(), fresh.state, nullptr, 0, nullptr, 0);
    CHECK(run.number == 0 && run.steps == 0 && same(run.state, fresh.state));
    const std::uint16_t one[1] = {0};
    CHECK(hmcs_run(tree.words(), fresh.state, one, 1, nullptr, 0).number == HMCS_TRACE_SHORT);
}

} // namespace

// The kinds of single steps, by value and in place, compared with a run's counts: some thousand random steps in three trees, with this kind of root.
void kinds(hmcs::RootKind root) {
    std::uint32_t seed = 7;
    const auto random = [&seed](std::uint32_t below) {
        seed = seed * 1664525u + 1013904223u;
        return (seed >> 8) % below;
    };
    for (std::uint32_t depth = 0; depth < 3; ++depth) {
        hmcs::Tree tree(root);
        std::vector<std::uint32_t> homes = {0};
        for (std::uint32_t level = 0; level < depth; ++level) {
            std::vector<std::uint32_t> below;
            for (const std::uint32_t parent : homes) {
                below.push_back(tree.add_domain(parent, 2));
                below.push_back(tree.add_domain(parent, 3));
            }
            homes = below;
        }
        for (const std::uint32_t home : homes) {
            tree.add_thread(home);
            tree.add_thread(home);
        }
        hmcs::Lock lock(tree, 65500);
        const hmcs_state before = lock.state();
        hmcs_state by_value = before;
        std::vector<std::uint16_t> schedule;
        std::uint32_t of_kind[6] = {};
        for (std::uint32_t k = 0; k < 3000; ++k) {
            const auto thread = static_cast<std::uint16_t>(random(tree.words().threads));
            schedule.push_back(thread);
            const hmcs::Place place = hmcs::place(by_value, thread);
            const bool at_home = place.row == HMCS_ROW_IDLE || place.row == HMCS_ROW_INSIDE;
            const hmcs_step_reply step = hmcs_step(tree.words(), by_value, thread);
            const hmcs::StepResult kept = lock.step(thread);
            CHECK(step.number == 0 && kept.accepted() && step.kind < 6 && same(lock.state(), step.state));
            CHECK(static_cast<std::uint32_t>(kept.kind) == step.kind && kept.domain == step.domain);
            CHECK(step.domain == (at_home ? tree.words().homes[thread] : place.domain));
            CHECK((step.kind == HMCS_LEAVING) == (place.row == HMCS_ROW_INSIDE));
            CHECK((step.kind == HMCS_STAY) == same(by_value, step.state));
            ++of_kind[step.kind];
            by_value = step.state;
        }
        hmcs::Lock other(tree, 65500);
        const hmcs::Counts counts = other.run(schedule).counts;
        CHECK(counts.steps == 3000 && counts.stays == of_kind[HMCS_STAY] && counts.root == of_kind[HMCS_ROOT_ENTRY]);
        CHECK(counts.passed == of_kind[HMCS_PASSED_ENTRY] && counts.crossed == of_kind[HMCS_CROSSED_ENTRY]);
        CHECK(counts.entries == of_kind[HMCS_ROOT_ENTRY] + of_kind[HMCS_PASSED_ENTRY] + of_kind[HMCS_CROSSED_ENTRY]);
        CHECK(of_kind[HMCS_LEAVING] + (other.holder() ? 1 : 0) == counts.entries);
        CHECK((counts.crossed > 0) == (depth == 2) && (counts.passed > 0) == (depth > 0));
    }
}

// A state that was saved under version 2 is read word by word.
static void states_of_version_2() {
    const hmcs::Tree tree = example_tree();
    hmcs_state now{};
    CHECK(hmcs_fresh_in_place(tree.words(), &now, 0).number == HMCS_ACCEPTED);
    hmcs::StateOfVersion2 saved{};
    for (int turn = 0; turn < 200; ++turn) {
        CHECK(hmcs_step_in_place(tree.words(), &now, static_cast<std::uint16_t>(turn * 7 % 3)).number == HMCS_ACCEPTED);
        std::copy(std::begin(now.tails), std::end(now.tails), std::begin(saved.tails));
        std::copy(std::begin(now.nexts), std::end(now.nexts), std::begin(saved.nexts));
        std::copy(std::begin(now.statuses), std::end(now.statuses), std::begin(saved.statuses));
        for (std::size_t i = 0; i < HMCS_THREADS; ++i) {
            const hmcs::Place place = hmcs::place(now, i);
            saved.places[i] = {place.row, place.domain, place.peer, place.word};
        }
        saved.ticket = now.ticket;
        saved.grant = now.grant;
        std::copy(std::begin(now.entries), std::end(now.entries), std::begin(saved.entries));
        std::copy(std::begin(now.tenures), std::end(now.tenures), std::begin(saved.tenures));
        std::copy(std::begin(now.longest), std::end(now.longest), std::begin(saved.longest));
        CHECK(hmcs::same(hmcs::from_version_2(saved), now));
    }
}

int main() {
    layouts();
    states_of_version_2();
    kinds(hmcs::RootKind::queue);
    kinds(hmcs::RootKind::ticket);
    tree_layout();
    example();
    wrapper();
    saved_states();
    files();
    wide_numbers();
    null_pointers();
    std::printf("host: %d checks, %d failures\n", checks, failures);
    return failures == 0 ? 0 : 1;
}
