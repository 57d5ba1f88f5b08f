// Your own lock, traced and checked with real threads. The lock is an MCS lock: a queue at the root and nothing below it.
#include "hmcs_trace.hpp"

#include <cstdint>
#include <cstdio>
#include <thread>
#include <vector>

// Records have the numbers of their threads. 0 means no record, and record r is stored as r + 1.
template <class Trace> class MyLock {
  public:
    explicit MyLock(std::uint32_t threads) : trace(threads), records_(threads) {}

    void lock(std::uint32_t me) {
        trace.step(me, root, [&](auto at) { // Idle does Prep
            at.store(records_[me].status, locked);
            at.store(records_[me].next, none);
            return hmcs::Kind::other_move;
        });
        std::uint32_t before = none;
        trace.step(me, root, [&](auto at) { // Swap
            before = at.exchange(tail_, me + 1);
            if (before != none) {
                return hmcs::Kind::other_move;
            }
            at.store(records_[me].status, unlocked);
            return hmcs::Kind::root_entry;
        });
        if (before == none) {
            return;
        }
        trace.step(me, root, [&](auto at) { // Link
            at.store(records_[before - 1].next, me + 1);
            return hmcs::Kind::other_move;
        });
        const auto wait = [&](auto at) { return at.load(records_[me].status) == locked ? hmcs::Kind::stay : hmcs::Kind::root_entry; };
        while (trace.step(me, root, wait) == hmcs::Kind::stay) { // Wait: every read is a step
            std::this_thread::yield();
        }
    }

    void unlock(std::uint32_t me) {
        std::uint32_t next = none;
        const auto look = [&](auto at) {
            next = at.load(records_[me].next);
            return next == none ? hmcs::Kind::stay : hmcs::Kind::other_move;
        };
        trace.step(me, root, [&](auto) { return hmcs::Kind::leaving; }); // Inside: the thread leaves
        trace.step(me, root, [&](auto at) {                              // Help
            look(at);
            return hmcs::Kind::other_move;
        });
        if (next == none) {
            bool alone = false;
            trace.step(me, root, [&](auto at) { // Cas
                alone = at.compare_exchange(tail_, me + 1, none);
                return hmcs::Kind::other_move;
            });
            if (alone) {
                return;
            }
            while (trace.step(me, root, look) == hmcs::Kind::stay) { // Linger: every read is a step
                std::this_thread::yield();
            }
        }
        trace.step(me, root, [&](auto at) { // Grant
            at.store(records_[next - 1].status, unlocked);
            return hmcs::Kind::other_move;
        });
    }

    Trace trace;

  private:
    using Word = typename Trace::template Word<>;
    struct Record {
        Word status, next;
    };
    static constexpr std::uint32_t root = 0, none = 0, unlocked = 0, locked = 1;

    std::vector<Record> records_;
    Word tail_;
};

// Compares kinds and domains of the steps with the model's, and checks that every thread is idle at the end.
bool right(const hmcs::Tree &tree, const hmcs::trace::Written &written) {
    const hmcs::trace::Steps &steps = written.steps;
    hmcs_state state = hmcs::Lock(tree).state();
    const hmcs::StepsResult found = hmcs::check_steps(tree, state, steps.threads, steps.kinds, steps.domains);
    if (found.refused()) {
        std::printf("step %zu, thread %u: %s\n", found.refusal.place, unsigned{steps.threads[found.refusal.place]}, found.refusal.text());
        return false;
    }
    for (std::size_t i = 0; i < tree.words().threads; ++i) {
        if (hmcs::place(state, i).row != HMCS_ROW_IDLE) {
            std::printf("at the end thread %zu still has or wants the lock\n", i);
            return false;
        }
    }
    return written.whole;
}

template <class Trace> bool try_with(const char *name) {
    const hmcs::Tree tree = hmcs::read_tree("(#4)").tree; // four threads whose home is the root
    const std::uint32_t threads = tree.words().threads;
    MyLock<Trace> lock(threads);
    int entries = 0;
    std::vector<std::thread> running;
    for (std::uint32_t me = 0; me < threads; ++me) {
        running.emplace_back([&lock, &entries, me] {
            for (int k = 0; k < 100; ++k) {
                lock.lock(me);
                ++entries;
                lock.unlock(me);
            }
        });
    }
    for (std::thread &thread : running) {
        thread.join();
    }
    const bool accepted = right(tree, lock.trace.written());
    std::printf("%s: %d entries, %s\n", name, entries, accepted ? "every step is the model's" : "not the model's steps");
    return accepted;
}

int main() {
    const bool one_by_one = try_with<hmcs::trace::OneByOne>("one by one");
    const bool thread_logs = try_with<hmcs::trace::ThreadLogs>("thread logs");
    return one_by_one && thread_logs ? 0 : 1;
}
