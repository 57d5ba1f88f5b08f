// A run with waits, as a host uses it: rows by hand, the same run as without them, consecutive runs, refusals, and that nothing outside the buffers is
// touched.
#include "check.hpp"
#include "guarded.hpp"
#include "hmcs.hpp"
#include "trees.hpp"

#include <array>
#include <cstdio>
#include <cstring>
#include <vector>

using hmcs::same;

namespace {

using Schedule = std::vector<std::uint16_t>;
using Numbers = std::array<std::uint64_t, HMCS_NUMBERS_PER_WAITS_ROW>;

Numbers numbers_of(const hmcs::Waits &w) { return {w.attempts, w.total, w.largest, w.numerator, w.denominator}; }

// Threads 0 and 1 alternate in one queue; each joins after the other before that one enters.
Schedule taking_turns() {
    Schedule schedule;
    const std::array<std::array<std::uint16_t, 2>, 9> parts = {{{1, 2}, {0, 3}, {1, 6}, {0, 7}, {1, 7}, {0, 7}, {1, 4}, {0, 4}, {1, 2}}};
    for (const auto &part : parts) {
        schedule.insert(schedule.end(), part[1], part[0]);
    }
    return schedule;
}

void wrapper() {
    hmcs::Lock lock(root_alone(hmcs::RootKind::queue, 2)), plain(root_alone(hmcs::RootKind::queue, 2));
    const hmcs::WaitsResult result = lock.run_waits(taking_turns());
    const hmcs::RunResult run = plain.run(taking_turns());
    CHECK(result.run.accepted() && result.threads.size() == 2);
    CHECK((numbers_of(result.threads[0]) == Numbers{3, 2, 1, 2, 3}));
    CHECK((numbers_of(result.threads[1]) == Numbers{4, 2, 1, 1, 2}));
    CHECK((numbers_of(result.all) == Numbers{7, 4, 1, 4, 7}));
    CHECK(result.run.trace == run.trace && result.run.counts.entries == run.counts.entries && result.run.counts.stays == run.counts.stays);
    CHECK(same(lock.state(), plain.state()));
    // the attempt of thread 1 that is under way when a run begins does not count in that run
    hmcs::Lock second(root_alone(hmcs::RootKind::queue, 2));
    CHECK(second.run(Schedule{0, 0, 1, 1, 1}).accepted());
    const hmcs::WaitsResult late = second.run_waits(Schedule{0, 0, 0, 1});
    CHECK(late.run.counts.entries == 1 && (numbers_of(late.threads[1]) == Numbers{}) && (numbers_of(late.all) == Numbers{}));
    // at a ticket root an attempt begins with the draw
    hmcs::Lock ticket(root_alone(hmcs::RootKind::ticket, 2), 65535);
    const hmcs::WaitsResult drawn = ticket.run_waits(Schedule{0, 1, 0, 0, 0, 1, 1, 1, 0});
    CHECK((numbers_of(drawn.threads[0]) == Numbers{2, 1, 1, 1, 2}) && (numbers_of(drawn.all) == Numbers{3, 1, 1, 1, 3}));
    CHECK(lock.run_waits(Schedule{2}).run.refusal.number == HMCS_BAD_ENTRY && lock.run_waits(Schedule{2}).threads.empty());
    CHECK(lock.run_waits(Schedule(65537, 0)).run.refusal.number == HMCS_SCHEDULE_LONG);
    CHECK(lock.run_waits(Schedule(65536, 0)).run.counts.steps == 65536);
}

// The example between guard pages, with each length around four rows, and with a trace that is long enough or one too short.
void buffers() {
    const hmcs::Tree tree = example_tree();
    const hmcs_state fresh = hmcs_fresh(tree.words(), 0).state;
    const std::array<std::uint64_t, 5> one = {1, 0, 0, 0, 1}, all = {3, 0, 0, 0, 1};
    for (bool at_end : {false, true}) {
        for (std::size_t room = 0; room <= 23; ++room) {
            for (std::size_t length : {schedule22.size() - 1, schedule22.size()}) {
                Guarded schedule(schedule22.size() * 2, at_end), trace(length * 2, at_end), rows(room * 8, at_end);
                std::memcpy(schedule.as<void>(), schedule22.data(), schedule22.size() * 2);
                std::memset(trace.as<void>(), 0x33, length * 2);
                std::memset(rows.as<void>(), 0x33, room * 8);
                const hmcs_waits_reply r = hmcs_run_waits(tree.words(), fresh, schedule.as<std::uint16_t>(), schedule22.size(), trace.as<std::uint16_t>(),
                                                          length, rows.as<std::uint64_t>(), room);
                const std::uint32_t number = length < schedule22.size() ? HMCS_TRACE_SHORT : room < 20 ? HMCS_WAITS_BUFFER_SHORT : HMCS_ACCEPTED;
                CHECK(r.number == number && r.place == 0 && r.entries == (number == 0 ? 3U : 0U) && r.rows == (number == 0 ? 4U : 0U));
                CHECK(number == 0 || same(r.state, fresh));
                for (std::size_t k = 0; k < length; ++k) {
                    CHECK(trace.as<std::uint16_t>()[k] == (number == 0 && k < 3 ? k : 0x3333));
                }
                for (std::size_t k = 0; k < room; ++k) {
                    const std::uint64_t wanted = k < 15 ? one[k % 5] : all[k % 5];
                    CHECK(rows.as<std::uint64_t>()[k] == (number == 0 && k < 20 ? wanted : UINT64_C(0x3333333333333333)));
                }
            }
        }
    }
    CHECK(hmcs_run_waits(tree.words(), fresh, nullptr, 0, nullptr, 0, nullptr, 0).number == HMCS_WAITS_BUFFER_SHORT);
}

// The numbers between guard pages: thread 1 is left waiting, and an impossible number leaves everything unchanged.
void guarded_numbers() {
    const hmcs::Tree tree = example_tree();
    const hmcs_state fresh = hmcs_fresh(tree.words(), 0).state;
    for (bool at_end : {false, true}) {
        Guarded numbers(HMCS_THREADS * 8, at_end), rows(20 * 8, at_end);
        std::memset(numbers.as<void>(), 0, HMCS_THREADS * 8);
        std::uint64_t *under_way = numbers.as<std::uint64_t>();
        const std::array<std::uint16_t, 7> turns = {0, 0, 0, 0, 1, 1, 1};
        std::array<std::uint16_t, 7> trace{};
        const auto run = [&] {
            std::memset(rows.as<void>(), 0x33, 20 * 8);
            return hmcs_run_waits_on(tree.words(), fresh, turns.data(), turns.size(), trace.data(), trace.size(), rows.as<std::uint64_t>(), 20, under_way);
        };
        CHECK(run().rows == 4 && under_way[0] == 0 && under_way[1] == 1 && under_way[2] == 0 && rows.as<std::uint64_t>()[15] == 1);
        under_way[HMCS_THREADS - 1] = 1;
        CHECK(run().place == HMCS_THREADS - 1 && under_way[1] == 1 && under_way[HMCS_THREADS - 1] == 1);
        CHECK(rows.as<std::uint64_t>()[0] == UINT64_C(0x3333333333333333) && rows.as<std::uint64_t>()[19] == UINT64_C(0x3333333333333333));
    }
}

bool same_waits(const hmcs::Waits &a, const hmcs::Waits &b) { return numbers_of(a) == numbers_of(b); }

// A schedule split at each of its turns: the two runs together give what one run gives, with the attempts under way between them.
void cut_anywhere() {
    const Schedule schedule = taking_turns();
    hmcs::Lock whole(root_alone(hmcs::RootKind::queue, 2));
    const hmcs::WaitsResult wanted = whole.run_waits(schedule);
    for (std::size_t at = 0; at <= schedule.size(); ++at) {
        const auto middle = schedule.begin() + static_cast<std::ptrdiff_t>(at);
        hmcs::Lock lock(root_alone(hmcs::RootKind::queue, 2));
        const hmcs::WaitsResult first = lock.run_waits(Schedule(schedule.begin(), middle));
        const hmcs::WaitsResult second = lock.run_waits(Schedule(middle, schedule.end()));
        const hmcs::WaitsSoFar waits = lock.waits();
        CHECK(first.accepted() && second.accepted() && waits.threads.size() == 2 && waits.under_way == whole.waits().under_way);
        CHECK(same_waits(waits.threads[0], wanted.threads[0]) && same_waits(waits.threads[1], wanted.threads[1]) && same_waits(waits.all, wanted.all));
        CHECK(same_waits(waits.all, hmcs::joined(first.all, second.all)) && same(lock.state(), whole.state()));
    }
}

// What the lock keeps, and when it is unknown.
void kept() {
    hmcs::Lock lock(root_alone(hmcs::RootKind::queue, 2));
    CHECK((lock.waits().under_way == std::vector<std::uint64_t>{0, 0}) && numbers_of(lock.waits().all) == Numbers{});
    // thread 1 waits in the queue while thread 0 is inside: its attempt is under way, and nobody has entered since
    CHECK(lock.run_waits(Schedule{0, 0, 1, 1, 1}).accepted());
    CHECK((lock.waits().under_way == std::vector<std::uint64_t>{0, 1}) && (numbers_of(lock.waits().threads[0]) == Numbers{1, 0, 0, 0, 1}));
    CHECK(lock.run_waits(Schedule{2}).refused() && (lock.waits().under_way == std::vector<std::uint64_t>{0, 1}));
    hmcs::Lock other = lock;
    const hmcs::WaitsResult result = lock.run_waits(Schedule{0, 0, 0, 1});
    CHECK((numbers_of(result.threads[1]) == Numbers{1, 0, 0, 0, 1}) && (numbers_of(lock.waits().all) == Numbers{2, 0, 0, 0, 1}));
    CHECK((lock.waits().under_way == std::vector<std::uint64_t>{0, 0}));
    // a run without turns changes nothing; after a step without waits the attempt is unknown
    CHECK(other.run(Schedule{}).accepted() && other.waits().under_way[1] == 1);
    CHECK(other.step(0).accepted() && other.waits().under_way[1] == 0);
    CHECK((numbers_of(other.run_waits(Schedule{0, 0, 1}).threads[1]) == Numbers{}));
    hmcs::Lock refused((hmcs::Tree()));
    CHECK(refused.refused() && refused.run_waits(Schedule{}).refused() && refused.waits().threads.empty() && refused.waits().under_way.empty());
}

// Numbers that a host passes in: large ones, capped totals, 27 with its place, and 18 before it.
void numbers() {
    const hmcs::Tree tree = root_alone(hmcs::RootKind::queue, 4);
    // thread 0 is inside, and threads 1 to 3 wait in the queue
    hmcs_state state = hmcs::Lock(tree).state();
    hmcs::UnderWay under_way{};
    CHECK(hmcs::run_waits(tree, state, under_way, Schedule{0, 0, 1, 1, 1, 2, 2, 2, 3, 3, 3}).accepted() && under_way[1] == 1 && under_way[3] == 1);
    const hmcs_state waiting = state;
    const Schedule go_on = {0, 0, 0, 1, 1, 1, 1, 2, 2, 2, 2, 3};
    under_way[1] = HMCS_MOST_COUNTED;
    under_way[2] = HMCS_MOST_COUNTED;
    under_way[3] = HMCS_MOST_COUNTED;
    const hmcs::WaitsResult result = hmcs::run_waits(tree, state, under_way, go_on);
    CHECK((numbers_of(result.threads[1]) == Numbers{1, HMCS_MOST_COUNTED - 1, HMCS_MOST_COUNTED - 1, HMCS_MOST_COUNTED - 1, 1}));
    CHECK((numbers_of(result.threads[2]) == Numbers{1, HMCS_MOST_COUNTED, HMCS_MOST_COUNTED, HMCS_MOST_COUNTED, 1}));
    // the three add up to more than 64 bits
    CHECK((numbers_of(result.all) == Numbers{3, UINT64_MAX, HMCS_MOST_COUNTED + 1, UINT64_MAX / 3, 1}));
    CHECK(under_way == hmcs::UnderWay{});
    for (const std::size_t at : {std::size_t{1}, std::size_t{4}, std::size_t{255}}) {
        under_way = {};
        under_way[at] = at == 1 ? HMCS_MOST_COUNTED + 1 : 1;
        const hmcs::UnderWay before = under_way;
        hmcs_state kept = waiting;
        const hmcs::WaitsResult refused = hmcs::run_waits(tree, kept, under_way, go_on);
        CHECK(refused.run.refusal.number == HMCS_BAD_UNDER_WAY && refused.run.refusal.place == at && refused.threads.empty());
        CHECK(under_way == before && same(kept, waiting));
    }
    // the largest number grows by one if another thread enters meanwhile; the next call refuses it
    state = waiting;
    under_way = {};
    under_way[2] = HMCS_MOST_COUNTED;
    CHECK(hmcs::run_waits(tree, state, under_way, Schedule{0, 0, 0, 1}).accepted() && under_way[2] == HMCS_MOST_COUNTED + 1);
    CHECK(hmcs::run_waits(tree, state, under_way, Schedule{}).run.refusal.number == HMCS_BAD_UNDER_WAY);
    // 18 before 27
    const hmcs_waits_reply few = hmcs_run_waits_on(tree.words(), state, nullptr, 0, nullptr, 0, nullptr, 0, under_way.data());
    CHECK(few.number == HMCS_WAITS_BUFFER_SHORT && few.rows == 0 && under_way[2] == HMCS_MOST_COUNTED + 1);
}

} // namespace

int main() {
    wrapper();
    cut_anywhere();
    kept();
    numbers();
    buffers();
    guarded_numbers();
    std::printf("waits: %d checks, %d failures\n", checks, failures);
    return failures == 0 ? 0 : 1;
}
