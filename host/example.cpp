// The 22 turns of the specification's example, stepped one by one on a host's lock: what each step did, and who holds the lock after it.
// Then two threads of a lock with a ticket root, whose counters start at 65,535; why a thread waits, for two more locks; and the first lock's
// counters of each domain.
#include "hmcs.hpp"

#include <cinttypes>
#include <cstdio>
#include <vector>

static bool play(hmcs::Lock &lock, const std::vector<std::uint16_t> &schedule) {
    if (lock.refused()) {
        std::printf("refused %u at %zu: %s\n", lock.refusal().number, lock.refusal().place, lock.refusal().text());
        return false;
    }
    for (std::size_t k = 0; k < schedule.size(); ++k) {
        const hmcs::StepResult step = lock.step(schedule[k]);
        if (step.refused()) {
            std::printf("refused %u at %zu: %s\n", step.refusal.number, step.refusal.place, step.refusal.text());
            return false;
        }
        const auto holder = lock.holder();
        if (holder) {
            std::printf("%2zu thread %u at domain %u %s; thread %u is inside\n", k, schedule[k], step.domain, hmcs::text(step.kind), *holder);
        } else {
            std::printf("%2zu thread %u at domain %u %s; nobody is inside\n", k, schedule[k], step.domain, hmcs::text(step.kind));
        }
    }
    return true;
}

// What a thread on a chain does if it does not wait.
static const char *standing(const hmcs::Lock &lock, std::uint16_t thread) {
    switch (lock.state().places.rows[thread]) {
    case HMCS_ROW_IDLE: return "is idle";
    case HMCS_ROW_INSIDE: return "is inside";
    default: return "can go on";
    }
}

// The chain of a thread as text.
static bool explain(const hmcs::Lock &lock, std::uint32_t thread) {
    const hmcs::ChainResult chain = lock.chain(thread);
    if (chain.refused()) {
        std::printf("refused %u at %zu: %s\n", chain.refusal.number, chain.refusal.place, chain.refusal.text());
        return false;
    }
    std::printf("thread %u", chain.threads.front());
    for (std::size_t k = 1; k < chain.threads.size(); ++k) {
        std::printf("%s waits for thread %u", k == 1 ? "" : ", which", chain.threads[k]);
    }
    std::printf("%s %s\n", chain.threads.size() == 1 ? "" : ", which", standing(lock, chain.threads.back()));
    return true;
}

// Entries, tenures and the longest tenure of each domain except the root.
static void counted(const hmcs::Lock &lock) {
    for (std::uint32_t domain = 1; domain < lock.tree().domains; ++domain) {
        const hmcs::Tenures t = lock.tenures(domain);
        std::printf("domain %u: entries %" PRIu64 ", tenures %" PRIu64 ", the longest %" PRIu64 "\n", domain, t.entries, t.tenures, t.longest);
    }
}

int main() {
    hmcs::Tree tree;
    const auto first = tree.add_domain(0, 2);
    const auto second = tree.add_domain(0, 16);
    tree.add_thread(first);
    tree.add_thread(first);
    tree.add_thread(second);
    hmcs::Lock lock(tree);
    if (!play(lock, {0, 0, 0, 0, 1, 1, 1, 1, 0, 0, 0, 1, 2, 2, 2, 2, 2, 1, 1, 1, 1, 2}))
        return 1;

    hmcs::Tree small(hmcs::RootKind::ticket);
    small.add_thread(0);
    small.add_thread(0);
    hmcs::Lock ticket_lock(small, 65535);
    if (!play(ticket_lock, {0, 1, 1, 0, 0, 1}))
        return 1;
    std::printf("the next ticket is %u, the grant is %u\n", ticket_lock.state().ticket, ticket_lock.state().grant);

    hmcs::Lock busy(tree);
    if (busy.run({0, 0, 0, 0, 1, 1, 1}).refused())
        return 1;
    if (!explain(busy, 1) || !explain(busy, 0) || !explain(busy, 2))
        return 1;
    hmcs::Lock busier(tree);
    if (busier.run({2, 2, 2, 2, 0, 0, 0, 0, 0, 1, 1, 1}).refused())
        return 1;
    if (!explain(busier, 1))
        return 1;

    counted(lock);
    return 0;
}
