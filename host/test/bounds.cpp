// The allowances of a tree, its longest waits and the rounds within which every thread enters, as a host uses them: levels, the largest child, numbers
// beyond 64 bits, refusals, that nothing outside the buffer is touched, and that with round robin every thread enters within the returned turns.
#include "check.hpp"
#include "guarded.hpp"
#include "hmcs.hpp"
#include "trees.hpp"

#include <algorithm>
#include <cstdio>
#include <vector>

namespace {

using Numbers = std::vector<std::uint64_t>;

// The example, the root alone, and a domain above two others, where the larger one counts; the kind of root does not matter.
void levels() {
    CHECK((hmcs::allowances(example_tree()).domains == Numbers{0, 2, 16}));
    CHECK((hmcs::allowances(two_domains(hmcs::RootKind::ticket)).domains == Numbers{0, 2, 16}));
    CHECK((hmcs::allowances(root_alone(hmcs::RootKind::queue, 2)).domains == Numbers{0}));
    CHECK((hmcs::allowances(hmcs::read_tree("(5(3(#1) 2(#4)) 7(#1))").tree).domains == Numbers{0, 15, 3, 2, 7}));
}

// Five domains below one another: the fifth product is beyond 64 bits.
void beyond() {
    const hmcs::AllowancesResult deep = hmcs::allowances(hmcs::read_tree("(65535(65535(65535(65535(65535(#1))))))").tree);
    CHECK((deep.domains == Numbers{0, UINT64_MAX, 18445618199572250625u, 281462092005375, 4294836225, 65535}));
}

// Refused like a fresh lock, with the buffer unchanged; accepted, with 0 after the domains; both between guard pages.
void buffer() {
    hmcs::Tree empty = example_tree();
    empty.add_domain(0, 4);
    CHECK(hmcs::allowances(empty).refusal.number == HMCS_EMPTY_DOMAIN && hmcs::allowances(empty).refusal.place == 3 && hmcs::allowances(empty).domains.empty());
    for (const bool at_end : {false, true}) {
        Guarded memory(HMCS_DOMAINS * sizeof(std::uint64_t), at_end);
        std::uint64_t *numbers = memory.as<std::uint64_t>();
        std::fill(numbers, numbers + HMCS_DOMAINS, UINT64_C(0x5A5A));
        CHECK(hmcs_allowances(empty.words(), numbers).number == HMCS_EMPTY_DOMAIN);
        CHECK(std::all_of(numbers, numbers + HMCS_DOMAINS, [](std::uint64_t n) { return n == 0x5A5A; }));
        CHECK(hmcs_allowances(example_tree().words(), numbers).number == HMCS_ACCEPTED && numbers[1] == 2 && numbers[2] == 16 && numbers[0] == 0);
        CHECK(std::all_of(numbers + 3, numbers + HMCS_DOMAINS, [](std::uint64_t n) { return n == 0; }));
    }
}

// Under a fair lock each other thread enters at most once, and so with thresholds that divide the numbers of members; with larger ones more often.
void longest_waits() {
    CHECK((hmcs::wait_bounds(root_alone(hmcs::RootKind::ticket, 3)).threads == Numbers{2, 2, 2}));
    CHECK((hmcs::wait_bounds(example_tree()).threads == Numbers{2, 2, 2}));
    CHECK((hmcs::wait_bounds(hmcs::read_tree("(3(#2) 2(#2))").tree).threads == Numbers{3, 3, 4, 4}));
    CHECK(hmcs::wait_bounds(hmcs::read_tree("(4(8(#8) 8(#8) 8(#8) 8(#8)) 4(8(#8) 8(#8) 8(#8) 8(#8)))").tree).threads == Numbers(64, 63));
    CHECK(hmcs::wait_bounds(hmcs::read_tree("(8(16(#8) 16(#8) 16(#8) 16(#8)) 8(16(#8) 16(#8) 16(#8) 16(#8)))").tree).threads == Numbers(64, 183));
    CHECK((hmcs::wait_bounds(hmcs::read_tree("(65535(65535(65535(65535(65535(#2))))) 1(#1))").tree).threads == Numbers{2, 2, UINT64_C(65535)}));
    const std::string wide = "(65535(65535(65535(65535(65535(#2) 1(#1)) 1(#1)) 1(#1)) 1(#1)) 1(#1))";
    CHECK(hmcs::wait_bounds(hmcs::read_tree(wide).tree).largest() == UINT64_MAX);
    hmcs::Tree empty = example_tree();
    empty.add_domain(0, 4);
    CHECK(hmcs::wait_bounds(empty).refusal.number == HMCS_EMPTY_DOMAIN && hmcs::wait_bounds(empty).threads.empty());
    for (const bool at_end : {false, true}) {
        Guarded memory(HMCS_THREADS * sizeof(std::uint64_t), at_end);
        std::uint64_t *numbers = memory.as<std::uint64_t>();
        std::fill(numbers, numbers + HMCS_THREADS, UINT64_C(0x5A5A));
        CHECK(hmcs_wait_bounds(empty.words(), numbers).place == 3);
        CHECK(std::all_of(numbers, numbers + HMCS_THREADS, [](std::uint64_t n) { return n == 0x5A5A; }));
        CHECK(hmcs_wait_bounds(example_tree().words(), numbers).number == HMCS_ACCEPTED && numbers[0] == 2);
        CHECK(std::all_of(numbers + 3, numbers + HMCS_THREADS, [](std::uint64_t n) { return n == 0; }));
    }
}

bool answers(const hmcs::Tree &tree, std::uint64_t rounds, std::uint64_t turns) {
    const hmcs::RoundsResult answer = hmcs::rounds(tree);
    return answer.accepted() && answer.rounds == rounds && answer.turns == turns;
}

// Two threads in the root, of either kind, the example, thresholds of one member, two levels, and three threads in three tenures, in two and in one; numbers beyond 64 bits, the turns alone first; and a refusal.
void rounds() {
    CHECK(answers(root_alone(hmcs::RootKind::queue, 2), 19, 38));
    CHECK(answers(root_alone(hmcs::RootKind::ticket, 2), 19, 38));
    CHECK(answers(example_tree(), 44, 132));
    CHECK(answers(hmcs::read_tree("(16(#1) 16(#1))").tree, 29, 58));
    CHECK(answers(hmcs::read_tree("(5(3(#1) 2(#1)))").tree, 44, 88));
    CHECK(answers(hmcs::read_tree("(1(#3))").tree, 55, 165));
    CHECK(answers(hmcs::read_tree("(2(#3))").tree, 42, 126));
    CHECK(answers(hmcs::read_tree("(3(#3))").tree, 38, 114));
    CHECK(answers(hmcs::read_tree("(65535(65535(65535(65535(65535(#1))))) 1(#1))").tree, 69, 138));
    CHECK(answers(hmcs::read_tree("(65535(65535(65535(8192(#2) 1(#1)) 1(#1)) 1(#1)) 1(#1))").tree, 16140162203956224025u, UINT64_MAX));
    CHECK(answers(hmcs::read_tree("(65535(65535(65535(65535(65535(#2) 1(#1)) 1(#1)) 1(#1)) 1(#1)) 1(#1))").tree, UINT64_MAX, UINT64_MAX));
    hmcs::Tree empty = example_tree();
    empty.add_domain(0, 4);
    const hmcs::RoundsResult refused = hmcs::rounds(empty);
    CHECK(refused.refusal.number == HMCS_EMPTY_DOMAIN && refused.refusal.place == 3 && refused.rounds == 0 && refused.turns == 0);
}

// From a state in which thread 2 holds the lock and the others wait, with round robin.
void everyone_enters() {
    hmcs::Lock lock(example_tree());
    CHECK(lock.run({2, 2, 2, 2, 2, 0, 0, 0, 0, 1, 1, 1, 1}).accepted());
    const hmcs::RoundsResult answer = hmcs::rounds(example_tree());
    std::vector<std::uint16_t> turns;
    for (std::uint64_t turn = 0; turn < answer.turns; ++turn)
        turns.push_back(static_cast<std::uint16_t>(turn % 3));
    const hmcs::RunResult ran = lock.run(turns);
    CHECK(ran.accepted());
    for (const std::uint16_t thread : {0, 1, 2})
        CHECK(std::count(ran.trace.begin(), ran.trace.end(), thread) > 0);
}

} // namespace

int main() {
    levels();
    beyond();
    buffer();
    longest_waits();
    rounds();
    everyone_enters();
    std::printf("bounds: %d checks, %d failures\n", checks, failures);
    return failures == 0 ? 0 : 1;
}
