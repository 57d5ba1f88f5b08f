// A real lock on real threads, traced in each way and checked; then the same lock with one fault that happens once, in a given number of runs for each
// fault (default 24). `real_lock samples FOLDER` writes the sample journals instead.
#include "check.hpp"
#include "real_threads.hpp"

#include <cstdio>
#include <cstdlib>
#include <cstring>
#include <fstream>
#include <string>

namespace {

using hmcs::Fault;
using hmcs::RootKind;

// A clock that runs backwards: an order must not depend on it.
struct Backwards {
    static std::chrono::steady_clock::time_point now() { return std::chrono::steady_clock::time_point(-std::chrono::steady_clock::now().time_since_epoch()); }
};

using Exact = Shaken<hmcs::trace::OneByOne>;
using Logs = Shaken<hmcs::trace::ThreadLogs>;
using Misled = Shaken<hmcs::trace::ThreadLogsBy<Backwards>>;

std::size_t steps_checked = 0;

// Every journal of the correct lock is accepted, every domain is the model's, and all threads enter as often as they want.
template <class Trace> void right(const hmcs::Tree &tree, std::uint32_t times, std::uint32_t seed) {
    const std::uint32_t threads = tree.words().threads;
    hmcs::AtomicLock<Trace> lock(tree.words());
    lock.trace().seed(seed);
    std::size_t inside = 0; // not atomic: protected by the lock
    enter(
        lock, threads, times, [&inside] { ++inside; }, [] {});
    const hmcs::trace::Written written = lock.trace().written();
    const Compared seen = compared(tree, written.steps);
    CHECK(!lock.trace().abandoned() && inside == std::size_t{threads} * times);
    CHECK(written.whole && !written.too_long && hmcs::check_journal(tree, written.steps.journal()).accepted());
    CHECK(seen.kind_or_domain == written.steps.size() && seen.not_idle == 0 && seen.entries == inside);
    CHECK(first_wrong(tree, written.steps) == written.steps.size());
    std::size_t taken = 0;
    for (std::uint32_t i = 0; i < threads; ++i) {
        taken += lock.trace().taken(i);
    }
    CHECK(taken == written.steps.size());
    steps_checked += taken;
}

void right_locks() {
    std::uint32_t seed = 0;
    for (const RootKind root : {RootKind::queue, RootKind::ticket}) {
        for (std::uint32_t levels = 1; levels <= 6; ++levels) {
            for (const std::uint32_t threads : {2u, 5u, 16u}) {
                const hmcs::Tree tree = tree_of_levels(root, levels, threads, 1 + ++seed % 3);
                const std::uint32_t times = 96 / threads;
                right<Exact>(tree, times, seed);
                right<Logs>(tree, times, seed);
                right<Misled>(tree, times, seed);
            }
        }
    }
}

// The tickets go from 65,535 to 0 without a change of the other counter.
void tickets_wrap() {
    const hmcs::Tree tree = tree_of_levels(RootKind::ticket, 1, 2, 1);
    hmcs::AtomicLock<hmcs::trace::ThreadLogs> lock(tree.words());
    for (std::uint32_t k = 0; k < 65540; ++k) {
        lock.lock(k % 2);
        lock.unlock(k % 2);
    }
    const hmcs::trace::Written written = lock.trace().written();
    CHECK(written.whole && written.steps.size() == 3u * 65540 && hmcs::check_journal(tree, written.steps.journal()).accepted());
}

// A fault that happens once, at one of its opportunities, and when: how many steps its thread had taken.
template <class Trace> struct Once {
    static constexpr bool possible = true;
    Fault fault = Fault::lost_wakeup;
    std::uint32_t opportunity = 0;
    const Trace *trace = nullptr;
    std::atomic<std::uint32_t> opportunities{0};
    bool happened = false;
    std::uint32_t thread = 0;
    std::size_t taken = 0;

    bool happens(Fault asked, std::uint32_t asking) {
        if (asked != fault || opportunities.fetch_add(1) != opportunity) {
            return false;
        }
        happened = true;
        thread = asking;
        taken = trace->taken(asking);
        return true;
    }

    // The position of the first step that the fault can have changed, or the number of steps.
    std::size_t position(const hmcs::trace::Steps &steps) const {
        std::size_t before = 0;
        for (std::size_t k = 0; k < steps.size(); ++k) {
            if (steps.threads[k] == thread && before++ == taken) {
                return k;
            }
        }
        return steps.size();
    }
};

struct Share {
    int happened = 0;
    int by_kinds = 0;      // refused by the check of the journal
    int without_stays = 0; // refused by it if stays are left out
    int by_domains = 0;    // refused if domains are compared too
    int at_the_end = 0;    // neither, but threads wait at the end, or no order of all steps is possible

    int found() const { return by_domains + at_the_end; }
};

hmcs::trace::Steps without_stays(const hmcs::trace::Steps &steps) {
    hmcs::trace::Steps moves;
    for (std::size_t k = 0; k < steps.size(); ++k) {
        if (steps.kinds[k] != HMCS_STAY) {
            moves.add(steps.threads[k], static_cast<hmcs::Kind>(steps.kinds[k]), steps.domains[k]);
        }
    }
    return moves;
}

// One run, in which every thread enters this many times.
template <class Trace> hmcs::trace::Written faulty(const hmcs::Tree &tree, Fault fault, std::uint32_t run, std::uint32_t times, Share &share) {
    hmcs::AtomicLock<Trace, hmcs::trace::SequentiallyConsistent, Once<Trace>> lock(tree.words());
    lock.faults().fault = fault;
    lock.faults().opportunity = run % 7;
    lock.faults().trace = &lock.trace();
    lock.trace().seed(run + 1);
    lock.trace().patience(std::chrono::milliseconds(10));
    // some faults show if the next thread is always there, one if nobody is
    enter(
        lock, tree.words().threads, times, [run] { yield(run % 3); }, [run] { yield(run / 3 % 3 * 20); });
    hmcs::trace::Written written = lock.trace().written();
    const Compared seen = compared(tree, written.steps);
    const std::size_t size = written.steps.size();
    CHECK(hmcs::check_journal(tree, written.steps.journal()).refused() == (seen.kind < size));
    CHECK(first_wrong(tree, written.steps) == seen.kind_or_domain);
    const bool waits = lock.trace().abandoned() || seen.not_idle != 0;
    if (lock.faults().happened) {
        const std::size_t position = lock.faults().position(written.steps);
        CHECK(seen.kind >= position && seen.kind_or_domain >= position);
        ++share.happened;
        share.by_kinds += seen.kind < size;
        share.without_stays += hmcs::check_journal(tree, without_stays(written.steps).journal()).refused();
        share.by_domains += seen.kind_or_domain < size;
        share.at_the_end += seen.kind_or_domain == size && (waits || !written.whole);
    } else {
        CHECK(seen.kind_or_domain == size && written.whole);
    }
    steps_checked += size;
    return written;
}

struct Named {
    Fault fault;
    const char *name;
};
constexpr Named faults[] = {{Fault::link_wait_skipped, "link wait skipped"},
                            {Fault::grant_before_parent, "grant before the parent is released"},
                            {Fault::count_from_0, "count from 0"},
                            {Fault::lost_wakeup, "lost wakeup"},
                            {Fault::at_most_for_below, "at most for below the threshold"},
                            {Fault::old_next_kept, "old next kept"},
                            {Fault::status_kept, "status not 1 after ACQUIRE_PARENT"}};

// Each fault is found, if not in every run, and never before it happened.
template <class Trace> void faulty_locks(const char *trace, std::uint32_t runs) {
    for (const Named &named : faults) {
        Share share;
        for (std::uint32_t run = 0; run < runs || (share.found() == 0 && run < 400); ++run) {
            const RootKind root = run % 2 == 0 ? RootKind::queue : RootKind::ticket;
            (void)faulty<Trace>(tree_of_levels(root, 2 + run % 2, 3 + run % 4, 1 + run / 2 % 2), named.fault, run, 12, share);
        }
        CHECK(share.found() > 0);
        std::printf("real_lock: %s, %s: of %d runs found in %d, by kinds and domains in %d, by kinds alone in %d, without stays in %d\n", trace, named.name,
                    share.happened, share.found(), share.by_domains, share.by_kinds, share.without_stays);
    }
}

bool write(const std::string &path, const std::vector<std::uint8_t> &bytes) {
    std::ofstream file(path, std::ios::binary);
    file.write(reinterpret_cast<const char *>(bytes.data()), static_cast<std::streamsize>(bytes.size()));
    return static_cast<bool>(file.flush());
}

// A journal of the correct lock with entries of two kinds and a stay, and one of the lock that grants before it releases the parent, which kinds alone refuse;
// prints where its first step with another kind or domain is.
int samples(const std::string &folder) {
    const hmcs::Tree tree = hmcs::read_tree("(2(#2) 16(#1))").tree;
    const auto has = [](const hmcs::trace::Steps &steps, std::uint32_t kind) { return std::count(steps.kinds.begin(), steps.kinds.end(), kind) > 0; };
    hmcs::trace::Steps steps;
    while (!has(steps, HMCS_PASSED_ENTRY) || !has(steps, HMCS_ROOT_ENTRY) || !has(steps, HMCS_STAY)) {
        hmcs::AtomicLock<Exact> lock(tree.words());
        enter(
            lock, 3, 3, [] {}, [] {});
        steps = lock.trace().written().steps;
    }
    const bool ok = write(folder + "/reference-lock.journal", steps.journal());
    for (std::uint32_t run = 0;; ++run) {
        Share share;
        const hmcs::trace::Written written = faulty<Exact>(tree, Fault::grant_before_parent, run, 3, share);
        if (share.by_kinds != 0 && written.steps.size() < 120) {
            const Compared seen = compared(tree, written.steps);
            std::printf("faulty-lock.journal: entry %zu has another domain, entry %zu another kind\n", seen.kind_or_domain, seen.kind);
            return write(folder + "/faulty-lock.journal", written.steps.journal()) && ok ? 0 : 2;
        }
    }
}

} // namespace

int main(int count, char **words) {
    if (count == 3 && std::strcmp(words[1], "samples") == 0) {
        return samples(words[2]);
    }
    const std::uint32_t runs = count == 2 ? static_cast<std::uint32_t>(std::atoi(words[1])) : 24;
    right_locks();
    tickets_wrap();
    faulty_locks<Exact>("one by one", runs);
    faulty_locks<Logs>("thread logs", runs);
    std::printf("real_lock: %zu steps, %d checks, %d failures\n", steps_checked, checks, failures);
    return failures == 0 ? 0 : 1;
}
