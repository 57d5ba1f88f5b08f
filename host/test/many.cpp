// Many schedules in one call, as a host uses it: rows compared with single runs, refusals, and that nothing outside the buffers is touched.
#include "check.hpp"
#include "guarded.hpp"
#include "hmcs.hpp"
#include "trees.hpp"

#include <array>
#include <cstdio>
#include <cstring>
#include <string>
#include <vector>

namespace {

using Schedule = std::vector<std::uint16_t>;
using Numbers = std::array<std::uint32_t, HMCS_NUMBERS_PER_MANY_ROW>;

// The answer for the schedule alone, from a fresh state, with a trace buffer of its length.
Numbers alone(const hmcs::Tree &tree, const Schedule &schedule) {
    Schedule trace(schedule.size());
    const hmcs_run_reply r = hmcs_run(tree.words(), hmcs_fresh(tree.words(), 0).state, schedule.data(), schedule.size(), trace.data(), trace.size());
    return {r.number, r.place, r.steps, r.entries, r.stays, r.root, r.passed, r.crossed};
}

Numbers numbers_of(const hmcs::Row &row) {
    const hmcs::Counts &c = row.counts;
    return {row.refusal.number, static_cast<std::uint32_t>(row.refusal.place), c.steps, c.entries, c.stays, c.root, c.passed, c.crossed};
}

// The example, an empty schedule, one that is too long, the longest, one with an entry that is no thread, and the example again: each gives the same as alone.
void wrapper() {
    const hmcs::Tree tree = example_tree();
    Schedule late = schedule22;
    late.push_back(3);
    const std::vector<Schedule> schedules = {schedule22, {}, Schedule(65537, 0), Schedule(65536, 1), late, Schedule(70000, 3), schedule22};
    const hmcs::ManyResult result = hmcs::run_many(tree, schedules);
    CHECK(result.accepted() && result.rows.size() == schedules.size());
    for (std::size_t k = 0; k < result.rows.size(); ++k) {
        CHECK(numbers_of(result.rows[k]) == alone(tree, schedules[k]));
    }
    CHECK((numbers_of(result.rows[0]) == Numbers{0, 0, 22, 3, 1, 2, 1, 0}));
    CHECK((numbers_of(result.rows[1]) == Numbers{}));
    CHECK((numbers_of(result.rows[2]) == Numbers{HMCS_SCHEDULE_LONG}));
    CHECK(result.rows[3].counts.steps == 65536);
    CHECK((numbers_of(result.rows[4]) == Numbers{HMCS_BAD_ENTRY, 22}));
    CHECK((numbers_of(result.rows[5]) == Numbers{HMCS_SCHEDULE_LONG}));
    CHECK(numbers_of(result.rows[6]) == numbers_of(result.rows[0]));
    CHECK(std::string(result.rows[4].refusal.text()) == "a thread number is not below the number of threads");
    hmcs::Tree empty;
    const hmcs::ManyResult refused = hmcs::run_many(empty, schedules);
    CHECK(refused.refusal.number == HMCS_BAD_THREADS && refused.rows.empty());
    CHECK(hmcs::run_many(tree, {}).accepted() && hmcs::run_many(tree, {}).rows.empty());
}

// With a ticket lock at the root each schedule starts with both counters at 0, whatever the previous one drew.
void ticket_root() {
    const hmcs::Tree tree = root_alone(hmcs::RootKind::ticket, 2);
    const std::vector<Schedule> schedules = {{0, 1, 1, 0, 0, 1}, {1}, Schedule(3, 0)};
    const hmcs::ManyResult result = hmcs::run_many(tree, schedules);
    CHECK(result.accepted() && result.rows.size() == schedules.size());
    for (std::size_t k = 0; k < result.rows.size(); ++k) {
        CHECK(numbers_of(result.rows[k]) == alone(tree, schedules[k]));
    }
    CHECK((numbers_of(result.rows[0]) == Numbers{0, 0, 6, 2, 1, 2, 0, 0}));
    CHECK((numbers_of(result.rows[1]) == Numbers{0, 0, 1, 1, 0, 1, 0, 0}));
}

// Three schedules of 22, 0 and 2 entries between guard pages, with each length around three rows, and one entry too many or too few.
void buffers() {
    const hmcs::Tree tree = example_tree();
    const std::array<std::uint32_t, 3> given = {22, 0, 2};
    Schedule all = schedule22;
    all.insert(all.end(), {0, 3});
    const std::array<Numbers, 3> wanted = {Numbers{0, 0, 22, 3, 1, 2, 1, 0}, Numbers{}, Numbers{HMCS_BAD_ENTRY, 1}};
    for (bool at_end : {false, true}) {
        for (std::size_t room = 0; room <= 26; ++room) {
            for (std::size_t count : {all.size() - 1, all.size()}) {
                Guarded lengths(sizeof given, at_end), entries(count * 2, at_end), rows(room * 4, at_end);
                std::memcpy(lengths.as<void>(), given.data(), sizeof given);
                std::memcpy(entries.as<void>(), all.data(), count * 2);
                std::memset(rows.as<void>(), 0x33, room * 4);
                const hmcs_many_reply answer =
                    hmcs_run_many(tree.words(), lengths.as<std::uint32_t>(), 3, entries.as<std::uint16_t>(), count, rows.as<std::uint32_t>(), room);
                const std::uint32_t number = count < all.size() ? HMCS_LENGTHS_WRONG : room < 24 ? HMCS_ROWS_SHORT : HMCS_ACCEPTED;
                CHECK(answer.number == number && answer.place == 0 && answer.rows == (number == 0 ? 3U : 0U));
                for (std::size_t k = 0; k < room; ++k) {
                    CHECK(rows.as<std::uint32_t>()[k] == (number == 0 && k < 24 ? wanted[k / 8][k % 8] : 0x33333333));
                }
            }
        }
    }
}

// Sums that are right only modulo 2^32, and null pointers with length 0.
void sums() {
    const hmcs::Tree tree = example_tree();
    const std::uint32_t wraps[3] = {UINT32_MAX, 1, 1};
    const std::uint16_t one[1] = {0};
    std::uint32_t rows[24] = {};
    CHECK(hmcs_run_many(tree.words(), wraps, 2, nullptr, 0, rows, 24).number == HMCS_LENGTHS_WRONG);
    CHECK(hmcs_run_many(tree.words(), wraps, 3, one, 1, rows, 24).number == HMCS_LENGTHS_WRONG);
    CHECK(hmcs_run_many(tree.words(), wraps + 1, 1, one, 1, rows, 24).number == 0 && rows[2] == 1);
    CHECK(hmcs_run_many(tree.words(), nullptr, 0, one, 1, rows, 24).number == HMCS_LENGTHS_WRONG);
    CHECK(hmcs_run_many(tree.words(), nullptr, 0, nullptr, 0, nullptr, 0).number == 0);
    hmcs_tree bad = tree.words();
    bad.homes[2] = 1;
    const hmcs_many_reply refused = hmcs_run_many(bad, wraps, 2, nullptr, 0, nullptr, 0);
    CHECK(refused.number == HMCS_EMPTY_DOMAIN && refused.place == 2 && refused.rows == 0);
    CHECK(std::string(hmcs_refusal_text(HMCS_LENGTHS_WRONG)) != hmcs_refusal_text(HMCS_ROWS_SHORT));
}

} // namespace

int main() {
    wrapper();
    ticket_root();
    buffers();
    sums();
    std::printf("many: %d checks, %d failures\n", checks, failures);
    return failures == 0 ? 0 : 1;
}
