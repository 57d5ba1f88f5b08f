// Traces, step by step: words and logs, the order found from what each access saw, and cases without an order.
#include "check.hpp"
#include "hmcs_lock.hpp"

#include <cstdio>
#include <stdexcept>
#include <utility>
#include <vector>

namespace {

using hmcs::Kind;
using hmcs::trace::OneByOne;
using hmcs::trace::ThreadLogs;
using hmcs::trace::Written;

// A clock that stands still: the order is found from the accesses alone, and otherwise follows the threads' numbers.
struct Still {
    static std::chrono::steady_clock::time_point now() { return {}; }
};
using Timeless = hmcs::trace::ThreadLogsBy<Still>;

// The same accesses give the same values with every trace.
template <class Trace> void words() {
    Trace trace(1);
    typename Trace::template Word<> word(7);
    const auto in_step = [&trace](auto take) {
        CHECK(trace.step(0, 0, [&take](auto at) {
            take(at);
            return Kind::other_move;
        }) == Kind::other_move);
    };
    in_step([&](auto at) {
        CHECK(at.load(word) == 7 && at.exchange(word, 9) == 7 && at.load(word) == 9);
        CHECK(!at.compare_exchange(word, 7, 1) && at.compare_exchange(word, 9, UINT32_MAX) && at.load(word) == UINT32_MAX);
    });
    in_step([&](auto at) {
        CHECK(at.fetch_add(word, 2) == UINT32_MAX && at.load(word) == 1);
        at.store(word, 5);
        CHECK(at.load(word) == 5 && at.fetch_add(word, 0u - 5u) == 5 && at.load(word) == 0);
    });
}

std::vector<std::pair<int, int>> order(const Written &written) { // thread and domain of each step
    std::vector<std::pair<int, int>> result;
    for (std::size_t k = 0; k < written.steps.size(); ++k) {
        result.emplace_back(written.steps.threads[k], written.steps.domains[k]);
    }
    return result;
}

// Each step has its number as its domain. By thread number 0 would come first; what was seen says otherwise.
void order_from_accesses() {
    Timeless trace(3);
    Timeless::Word<> a(0), b(0);
    const auto store = [&](std::uint32_t thread, std::uint32_t number, Timeless::Word<> &word) {
        trace.step(thread, number, [&](auto at) {
            at.store(word, number);
            return Kind::other_move;
        });
    };
    const auto load = [&](std::uint32_t thread, std::uint32_t number, Timeless::Word<> &word) {
        trace.step(thread, number, [&](auto at) {
            at.load(word);
            return Kind::stay;
        });
    };
    load(2, 1, a);  // sees the first value, so it comes before 2
    store(1, 2, a); // replaces it
    load(0, 3, a);  // sees 2
    store(0, 4, b);
    store(1, 5, b); // replaces 4
    load(2, 6, b);  // sees 5
    const Written written = trace.written();
    CHECK(written.whole && (order(written) == std::vector<std::pair<int, int>>{{2, 1}, {1, 2}, {0, 3}, {0, 4}, {1, 5}, {2, 6}}));
    CHECK(trace.taken(0) == 2 && trace.taken(1) == 2 && trace.taken(2) == 2);
}

// A failed compare_exchange only reads, a step may see its own write, and a step without an access is ordered only by its thread.
void other_accesses() {
    Timeless trace(2);
    Timeless::Word<> a(1);
    trace.step(1, 1, [&](auto at) { return at.compare_exchange(a, 1, 2) ? Kind::other_move : Kind::stay; });
    trace.step(0, 2, [&](auto at) { return at.compare_exchange(a, 1, 3) ? Kind::other_move : Kind::stay; });
    trace.step(1, 3, [&](auto at) {
        at.store(a, at.load(a) + 1);
        return at.load(a) == 3 ? Kind::other_move : Kind::stay;
    });
    trace.step(1, 4, [](auto) { return Kind::leaving; });
    const Written written = trace.written();
    CHECK(written.whole && (order(written) == std::vector<std::pair<int, int>>{{1, 1}, {0, 2}, {1, 3}, {1, 4}}));
    CHECK((written.steps.kinds == std::vector<std::uint16_t>{1, 0, 1, 5}));
    CHECK((written.steps.journal() == std::vector<std::uint8_t>{3, 1, 0, 1, 1, 0, 0, 3, 1, 0, 1, 2, 5}));
}

// A ticket lock with two words: thread 1 draws, then thread 2 draws and looks at the grant, thread 0 raises it, and only then thread 1 looks. As one step
// each there is no order: 1 drew before 2, 2 looked before the raise, and 1 after it. The accesses as separate steps have one.
void two_words() {
    for (const bool apart : {false, true}) {
        Timeless trace(3);
        Timeless::Word<> ticket(1), grant(0);
        const auto access = [&](std::uint32_t thread, auto take) {
            trace.step(thread, 0, [&](auto at) {
                take(at);
                return Kind::other_move;
            });
        };
        const auto draw = [&](auto at) { at.fetch_add(ticket, 1); };
        const auto look = [&](auto at) { at.load(grant); };
        const auto rest = [&] {
            access(2, draw);
            access(2, look);
            access(0, [&](auto at) { at.fetch_add(grant, 1); });
        };
        if (apart) {
            access(1, draw);
            rest();
            access(1, look);
        } else {
            trace.step(1, 0, [&](auto at) {
                draw(at);
                rest(); // while thread 1 is in its step
                look(at);
                return Kind::root_entry;
            });
        }
        const Written written = trace.written();
        CHECK(written.whole == apart && written.steps.size() == (apart ? 5u : 0u));
    }
}

// Too many writes are noticed.
void too_long() {
    std::vector<hmcs::trace::detail::Log> logs(1);
    logs[0].writes = hmcs::trace::detail::most_writes - 1;
    CHECK(logs[0].next_write() == hmcs::trace::detail::most_writes && !logs[0].too_long);
    CHECK(logs[0].next_write() == 1 && logs[0].too_long);
    const Written written = hmcs::trace::detail::Merge(logs).run();
    CHECK(written.too_long && !written.whole && written.steps.size() == 0);
}

// One thread alone: the same steps with both traces, those of the step table.
template <class Trace> hmcs::trace::Steps alone(const hmcs::Tree &tree) {
    hmcs::AtomicLock<Trace> lock(tree.words());
    for (const std::uint32_t thread : {0u, 2u, 0u}) {
        lock.lock(thread);
        lock.unlock(thread);
    }
    return lock.trace().written().steps;
}

void one_thread_alone() {
    hmcs::Tree tree(hmcs::RootKind::ticket);
    tree.add_domain(0, 2);
    tree.add_domain(0, 16);
    for (const std::uint32_t home : {1u, 1u, 2u}) {
        tree.add_thread(home);
    }
    const hmcs::trace::Steps steps = alone<OneByOne>(tree);
    CHECK((steps.threads == std::vector<std::uint16_t>{0, 0, 0, 0, 0, 0, 0, 0, 2, 2, 2, 2, 2, 2, 2, 2, 0, 0, 0, 0, 0, 0, 0, 0}));
    CHECK((std::vector<std::uint32_t>(steps.kinds.begin(), steps.kinds.begin() + 8) == std::vector<std::uint32_t>{1, 1, 2, 5, 1, 1, 1, 1}));
    CHECK((std::vector<std::uint32_t>(steps.domains.begin(), steps.domains.begin() + 8) == std::vector<std::uint32_t>{1, 1, 0, 1, 1, 0, 1, 1}));
    CHECK(hmcs::check_journal(tree, steps.journal()).accepted());
    const hmcs::trace::Steps logged = alone<ThreadLogs>(tree);
    CHECK(logged.threads == steps.threads && logged.kinds == steps.kinds && logged.domains == steps.domains);
}

// A tree that the model refuses has no lock.
void refused_tree() {
    bool thrown = false;
    try {
        hmcs::AtomicLock<> lock(hmcs::Tree().words());
    } catch (const std::invalid_argument &) {
        thrown = true;
    }
    CHECK(thrown);
}

} // namespace

int main() {
    words<hmcs::trace::None>();
    words<OneByOne>();
    words<ThreadLogs>();
    order_from_accesses();
    other_accesses();
    two_words();
    too_long();
    one_thread_alone();
    refused_tree();
    std::printf("trace: %d checks, %d failures\n", checks, failures);
    return failures == 0 ? 0 : 1;
}
