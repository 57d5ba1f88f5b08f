// The cost of the reference lock, compared with std::mutex and a handwritten MCS lock with std::atomic. A benchmark is not a test: nothing calls it.
//   g++ -std=c++17 -O2 -I host/include host/test/lock_bench.cpp target/staticlib/libhost.a -pthread -o lock_bench && ./lock_bench
#include "real_threads.hpp"

#include <cstdio>
#include <mutex>

namespace {

// Only the root's queue, as in AtomicLock, without a tree, a trace or faults.
class ByHand {
  public:
    void lock(std::uint32_t me) {
        records_[me].status.store(1);
        records_[me].next.store(0);
        const std::uint32_t before = tail_.exchange(me + 1);
        if (before == 0) {
            records_[me].status.store(0);
            return;
        }
        records_[before - 1].next.store(me + 1);
        spin([&] { return records_[me].status.load() == 1; });
    }

    void unlock(std::uint32_t me) {
        std::uint32_t next = records_[me].next.load();
        if (next == 0) {
            std::uint32_t mine = me + 1;
            if (tail_.compare_exchange_strong(mine, 0)) {
                return;
            }
            spin([&] { return (next = records_[me].next.load()) == 0; });
        }
        records_[next - 1].status.store(0);
    }

  private:
    template <class Stays> static void spin(Stays stays) {
        for (std::uint32_t k = 1; stays(); ++k) {
            if (k % 64 == 0) {
                std::this_thread::yield();
            }
        }
    }

    struct alignas(64) Record {
        std::atomic<std::uint32_t> status{0};
        std::atomic<std::uint32_t> next{0};
    };
    Record records_[2];
    alignas(64) std::atomic<std::uint32_t> tail_{0};
};

struct Standard {
    void lock(std::uint32_t) { mutex.lock(); }
    void unlock(std::uint32_t) { mutex.unlock(); }
    std::mutex mutex;
};

// Nanoseconds for an entry, the best of seven rounds of this many.
template <class Make> double measured(Make make, std::uint32_t threads, std::uint32_t times) {
    double best = 1e9;
    for (int round = 0; round < 7; ++round) {
        auto lock = make();
        std::uint64_t inside = 0;
        const auto began = std::chrono::steady_clock::now();
        enter(
            *lock, threads, times, [&inside] { ++inside; }, [] {});
        const std::chrono::duration<double, std::nano> took = std::chrono::steady_clock::now() - began;
        best = std::min(best, took.count() / static_cast<double>(inside));
    }
    return best;
}

template <class Make> void line(const char *name, std::uint32_t times, Make make) {
    std::printf("%-40s %8.1f %8.1f\n", name, measured(make, 1, times), measured(make, 2, times));
}

template <class Trace> auto lock_of(hmcs::RootKind root, std::uint32_t levels) {
    return [=] { return std::make_unique<hmcs::AtomicLock<Trace>>(tree_of_levels(root, levels, 2, 64).words()); };
}

} // namespace

int main() {
    using namespace hmcs::trace;
    using hmcs::RootKind;
    std::printf("%-40s %8s %8s\n", "nanoseconds an entry", "1 thread", "2");
    line("std::mutex", 300000, [] { return std::make_unique<Standard>(); });
    line("MCS lock by hand", 300000, [] { return std::make_unique<ByHand>(); });
    line("no trace, queue root", 300000, lock_of<None>(RootKind::queue, 1));
    line("no trace, ticket root", 300000, lock_of<None>(RootKind::ticket, 1));
    line("no trace, 2 levels", 300000, lock_of<None>(RootKind::queue, 2));
    line("no trace, 3 levels", 300000, lock_of<None>(RootKind::queue, 3));
    line("no trace, 6 levels", 300000, lock_of<None>(RootKind::queue, 6));
    line("one by one, queue root", 30000, lock_of<OneByOne>(RootKind::queue, 1));
    line("one by one, 3 levels", 30000, lock_of<OneByOne>(RootKind::queue, 3));
    line("thread logs, queue root", 30000, lock_of<ThreadLogs>(RootKind::queue, 1));
    line("thread logs, 3 levels", 30000, lock_of<ThreadLogs>(RootKind::queue, 3));
    return 0;
}
