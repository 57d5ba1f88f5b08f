// The check of steps, as a host uses it: traces of the lock itself, pieces, each number with its place, and the returned state.
#include "check.hpp"
#include "hmcs.hpp"
#include "trees.hpp"

#include <cstdio>
#include <vector>

using hmcs::same;

namespace {

using Numbers = std::vector<std::uint16_t>;

// A trace: three lists.
struct Trace {
    Numbers threads, kinds, domains;
};

Trace trace_of(hmcs::Lock &lock, const Numbers &schedule) {
    Trace trace{schedule, {}, {}};
    for (const hmcs::StepKind &step : lock.run_kinds(schedule).steps) {
        trace.kinds.push_back(static_cast<std::uint16_t>(step.kind));
        trace.domains.push_back(static_cast<std::uint16_t>(step.domain));
    }
    return trace;
}

Numbers mixed(std::uint16_t threads, std::size_t length) {
    Numbers schedule;
    std::uint32_t number = 11;
    for (std::size_t k = 0; k < length; ++k) {
        number = number * 1664525 + 1013904223;
        schedule.push_back(static_cast<std::uint16_t>((number >> 16) % threads));
    }
    return schedule;
}

Numbers part(const Numbers &list, std::size_t from, std::size_t to) {
    return Numbers(list.begin() + static_cast<std::ptrdiff_t>(from), list.begin() + static_cast<std::ptrdiff_t>(to));
}

void accepted() {
    for (const hmcs::RootKind root : {hmcs::RootKind::queue, hmcs::RootKind::ticket}) {
        const hmcs::Tree tree = two_domains(root);
        for (const std::size_t length : {0U, 1U, 1023U, 1024U, 1025U, 5000U, 65536U}) {
            hmcs::Lock lock(tree);
            const Trace trace = trace_of(lock, mixed(3, length));
            hmcs_state state = hmcs::Lock(tree).state();
            const hmcs::StepsResult whole = hmcs::check_steps(tree, state, trace.threads, trace.kinds, trace.domains);
            CHECK(whole.accepted() && whole.refusal.place == 0 && whole.checked == length && same(state, lock.state()));
            // in two pieces, the second from where the first ended
            const std::size_t middle = length / 3;
            hmcs_state pieces = hmcs::Lock(tree).state();
            CHECK(hmcs::check_steps(tree, pieces, part(trace.threads, 0, middle), part(trace.kinds, 0, middle), part(trace.domains, 0, middle)).checked ==
                  middle);
            CHECK(hmcs::check_steps(tree, pieces, part(trace.threads, middle, length), part(trace.kinds, middle, length), part(trace.domains, middle, length))
                      .accepted());
            CHECK(same(pieces, lock.state()));
        }
    }
}

// One number changed at a position: that number is refused there, and the state is the one before it.
void refused() {
    const hmcs::Tree tree = example_tree();
    for (const std::size_t at : {0U, 5U, 1023U, 1024U, 2100U}) {
        hmcs::Lock lock(tree);
        const Trace right = trace_of(lock, mixed(3, 2200));
        hmcs::Lock before(tree);
        CHECK(before.run(part(right.threads, 0, at)).accepted());
        const auto answers = [&](const Trace &trace, std::uint32_t number) {
            hmcs_state state = hmcs::Lock(tree).state();
            const hmcs::StepsResult result = hmcs::check_steps(tree, state, trace.threads, trace.kinds, trace.domains);
            return result.refusal.number == number && result.refusal.place == at && result.checked == at && same(state, before.state());
        };
        Trace wrong = right;
        wrong.threads[at] = 3;
        CHECK(answers(wrong, HMCS_BAD_ENTRY));
        wrong = right;
        wrong.kinds[at] = static_cast<std::uint16_t>(wrong.kinds[at] + 8);
        CHECK(answers(wrong, HMCS_OTHER_KIND));
        wrong.domains[at] = 9;
        CHECK(answers(wrong, HMCS_OTHER_KIND)); // 26 before 29
        wrong = right;
        wrong.domains[at] = static_cast<std::uint16_t>(wrong.domains[at] + 1);
        CHECK(answers(wrong, HMCS_OTHER_DOMAIN));
    }
}

// Nothing is done before the steps, and 19 is tested step by step.
void other_numbers() {
    const hmcs::Tree tree = example_tree();
    const hmcs_state fresh = hmcs::Lock(tree).state();
    hmcs_state state = fresh;
    hmcs::StepsResult result = hmcs::check_steps(tree, state, {0, 3}, {1}, {1, 1});
    CHECK(result.refusal.number == HMCS_LISTS_UNEQUAL && result.refusal.place == 0 && result.checked == 0 && same(state, fresh));
    CHECK(hmcs::check_steps(tree, state, {0}, {1}, {}).refusal.number == HMCS_LISTS_UNEQUAL);
    state.places.rows[255] = HMCS_ROW_INSIDE;
    const hmcs_state spoilt = state;
    CHECK(hmcs::check_steps(tree, state, {0}, {1}, {}).refusal.number == HMCS_BAD_STATE && same(state, spoilt));
    state = fresh;
    state.entries[1] = HMCS_MOST_COUNTED;
    result = hmcs::check_steps(tree, state, {0, 0, 0, 0, 0}, {1, 1, 1, 2, 9}, {1, 1, 0, 0, 1});
    CHECK(result.refusal.number == HMCS_COUNTER_FULL && result.refusal.place == 3 && result.checked == 3 && hmcs::place(state, 0).row == HMCS_ROW_SWAP);
}

// The kinds agree and a domain does not: the local successor is granted before the parent is released.
void granted_too_early() {
    hmcs::Tree tree;
    tree.add_domain(0, 1); // threshold 1: the root is released at once
    tree.add_thread(1);
    tree.add_thread(1);
    hmcs::Lock lock(tree);
    const Trace trace = trace_of(lock, {0, 0, 0, 0, 1, 1, 1, 0, 0, 0, 0, 0});
    hmcs_state state = hmcs::Lock(tree).state();
    CHECK(hmcs::check_steps(tree, state, trace.threads, trace.kinds, trace.domains).accepted());
    Trace wrong = trace;
    wrong.domains[9] = 1; // Help, which is at the root, recorded as one at the thread's home
    state = hmcs::Lock(tree).state();
    const hmcs::StepsResult result = hmcs::check_steps(tree, state, wrong.threads, wrong.kinds, wrong.domains);
    CHECK(result.refusal.number == HMCS_OTHER_DOMAIN && result.refusal.place == 9 && result.checked == 9);
    // why the other thread waits there
    CHECK(hmcs::Lock::saved(tree, state).chain(1).threads == Numbers({1, 0}));
}

} // namespace

int main() {
    accepted();
    refused();
    other_numbers();
    granted_too_early();
    std::printf("steps: %d checks, %d failures\n", checks, failures);
    return failures == 0 ? 0 : 1;
}
