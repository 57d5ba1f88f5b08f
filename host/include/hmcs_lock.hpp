// A real lock for C++17: the hierarchical MCS lock over a tree, with std::atomic. A reference to compare your own lock with. CPP.md shows how to trace
// and check it.
//
// Each function below is a row of the step table (SPECIFICATION.md), one atomic step, and has the row's name. In a step at most one access is to a word
// that another thread may write at the same time. Only this thread writes the other words then: status and next of its record before the record is in a
// queue, and its status after the grant. At a ticket root both counters are in one word, so Draw reads both at once.
#ifndef HMCS_LOCK_HPP
#define HMCS_LOCK_HPP

#include "hmcs_trace.hpp"

#include <array>
#include <cstdint>
#include <memory>
#include <stdexcept>
#include <thread>
#include <utility>

namespace hmcs {

// What a lock can do wrong, for tests of traces and checks.
enum class Fault {
    link_wait_skipped,   // after a failed Cas, a successor that has not linked itself yet is treated as absent
    grant_before_parent, // the successor is granted before the parent is released
    count_from_0,        // the first of a cohort counts 0
    lost_wakeup,         // a Grant that does not write
    at_most_for_below,   // Check passes on when the status is the threshold
    old_next_kept,       // Prep leaves next unchanged
    status_kept          // after ACQUIRE_PARENT the status does not become 1
};

// No faults: this is compiled away. Another policy decides, wherever a fault would make a difference, whether it happens now.
struct NoFaults {
    static constexpr bool possible = false;
    static constexpr bool happens(Fault, std::uint32_t) { return false; }
};

// The lock. Each thread of the tree calls lock and unlock with its own number, one thread at a time for each number.
template <class Trace = trace::None, class Orders = trace::SequentiallyConsistent, class Faults = NoFaults> class AtomicLock {
  public:
    // Throws std::invalid_argument if the tree is refused.
    explicit AtomicLock(const hmcs_tree &tree) : tree_(accepted(tree)), trace_(tree.threads), words_(std::make_unique<Words>()) {}

    void lock(std::uint32_t thread) { acquire(thread, tree_.homes[thread], thread); }

    void unlock(std::uint32_t thread) {
        leave(thread);
        release(thread, tree_.homes[thread], thread);
    }

    Trace &trace() { return trace_; }
    Faults &faults() { return faults_; }

  private:
    using Word = typename Trace::template Word<Orders>;

    struct alignas(64) Record {
        Word status;
        Word next; // 0 for none, else a record's number + 1; tails too
    };
    struct alignas(64) Tail {
        Word word;
    };
    struct Words {
        std::array<Record, HMCS_RECORDS> records;
        std::array<Tail, HMCS_DOMAINS> tails;
        Tail counters; // of a ticket root: the ticket in the high 16 bits, the grant in the low ones
    };
    struct Successor { // the record that Grant passes to, and the word it writes; record 0 for nobody
        std::uint32_t record;
        std::uint32_t word;
    };

    // These stand for the 64-bit words of the same names.
    static constexpr std::uint32_t acquire_parent = UINT32_MAX - 1;
    static constexpr std::uint32_t wait_word = UINT32_MAX;
    static constexpr std::uint32_t unlocked = 0;
    static constexpr std::uint32_t locked = 1;
    static constexpr std::uint32_t none = 0;

    static const hmcs_tree &accepted(const hmcs_tree &tree) {
        const hmcs_fresh_reply fresh = hmcs_fresh(tree, 0);
        if (fresh.number != 0) {
            throw std::invalid_argument(hmcs_refusal_text(fresh.number));
        }
        return tree;
    }

    Record &record(std::uint32_t r) { return words_->records[r]; }
    Word &tail(std::uint32_t l) { return words_->tails[l].word; }
    bool ticket_at(std::uint32_t l) const { return l == 0 && tree_.ticket_root != 0; }
    static std::uint32_t record_of(std::uint32_t domain) { return 256 + domain; }

    // Acquires a domain with a record and then, if the lock was not passed on to it, the domains above it.
    void acquire(std::uint32_t thread, std::uint32_t l, std::uint32_t i) {
        if (ticket_at(l)) {
            draw(thread, i);
            return;
        }
        prep(thread, l, i);
        const std::uint32_t before = swap(thread, l, i);
        if (before != none) {
            link(thread, l, before - 1, i);
        }
        const bool entered = before != none ? wait(thread, l, i) : l == 0;
        if (!entered) {
            acquire(thread, tree_.parents[l], record_of(l));
        }
    }

    void prep(std::uint32_t thread, std::uint32_t l, std::uint32_t i) {
        trace_.step(thread, l, [&](auto at) {
            at.store(record(i).status, l == 0 ? locked : wait_word);
            const bool old_next = Faults::possible && at.load(record(i).next) != none;
            if (!(old_next && faults_.happens(Fault::old_next_kept, thread))) {
                at.store(record(i).next, none);
            }
            return Kind::other_move;
        });
    }

    // Returns the old tail.
    std::uint32_t swap(std::uint32_t thread, std::uint32_t l, std::uint32_t i) {
        std::uint32_t before = none;
        trace_.step(thread, l, [&](auto at) {
            before = at.exchange(tail(l), i + 1);
            if (before == none) {
                at.store(record(i).status, l == 0 ? unlocked : cohort_start(thread));
            }
            return before == none && l == 0 ? Kind::root_entry : Kind::other_move;
        });
        return before;
    }

    std::uint32_t cohort_start(std::uint32_t thread) { return faults_.happens(Fault::count_from_0, thread) ? 0 : 1; }

    void link(std::uint32_t thread, std::uint32_t l, std::uint32_t before, std::uint32_t i) {
        trace_.step(thread, l, [&](auto at) {
            at.store(record(before).next, i + 1);
            return Kind::other_move;
        });
    }

    // Waits for a word other than WAIT (LOCKED at the root); false if the thread must acquire the parent.
    bool wait(std::uint32_t thread, std::uint32_t l, std::uint32_t i) {
        const Kind entry = l == 0 ? Kind::root_entry : l == tree_.homes[thread] ? Kind::passed_entry : Kind::crossed_entry;
        return until_moved(thread, l, [&](auto at) {
                   const std::uint32_t status = at.load(record(i).status);
                   if (status == (l == 0 ? locked : wait_word)) {
                       return Kind::stay;
                   }
                   if (l == 0 || status != acquire_parent) {
                       return entry;
                   }
                   if (!faults_.happens(Fault::status_kept, thread)) {
                       at.store(record(i).status, cohort_start(thread));
                   }
                   return Kind::other_move;
               }) == entry;
    }

    // Repeats a step until it is not a stay.
    template <class Take> Kind until_moved(std::uint32_t thread, std::uint32_t domain, Take &&take) {
        Kind kind = trace_.step(thread, domain, take);
        for (std::uint32_t stays = 1; kind == Kind::stay; ++stays) {
            if (stays % 64 == 0) {
                std::this_thread::yield();
            }
            kind = trace_.step(thread, domain, take);
        }
        return kind;
    }

    void leave(std::uint32_t thread) {
        trace_.step(thread, tree_.homes[thread], [](auto) { return Kind::leaving; });
    }

    // Releases a domain: passes it on, or releases those above it first.
    void release(std::uint32_t thread, std::uint32_t l, std::uint32_t i) {
        if (ticket_at(l)) {
            raise(thread, i);
        } else if (l == 0) {
            help(thread, l, i);
        } else if (const Successor successor = check(thread, l, i); successor.record != none) {
            grant(thread, l, successor);
        } else if (faults_.happens(Fault::grant_before_parent, thread)) {
            help(thread, l, i);
            release(thread, tree_.parents[l], record_of(l));
        } else {
            release(thread, tree_.parents[l], record_of(l));
            help(thread, l, i);
        }
    }

    Successor check(std::uint32_t thread, std::uint32_t l, std::uint32_t i) {
        Successor found{none, 0};
        trace_.step(thread, l, [&](auto at) {
            const std::uint32_t status = at.load(record(i).status);
            const std::uint32_t next = at.load(record(i).next);
            const std::uint32_t threshold = tree_.thresholds[l];
            if (next != none && (status < threshold || (status == threshold && faults_.happens(Fault::at_most_for_below, thread)))) {
                found = Successor{next, status + 1};
            }
            return Kind::other_move;
        });
        return found;
    }

    // Passes a domain on, with the word for "those above were released"; or leaves it without a tail.
    void help(std::uint32_t thread, std::uint32_t l, std::uint32_t i) {
        std::uint32_t next = none;
        const auto look = [&](auto at) {
            next = at.load(record(i).next);
            return Kind::other_move;
        };
        trace_.step(thread, l, look);
        if (next == none) {
            if (cas(thread, l, i) || faults_.happens(Fault::link_wait_skipped, thread)) {
                return;
            }
            until_moved(thread, l, [&](auto at) { // Linger
                look(at);
                return next == none ? Kind::stay : Kind::other_move;
            });
        }
        grant(thread, l, Successor{next, l == 0 ? unlocked : acquire_parent});
    }

    bool cas(std::uint32_t thread, std::uint32_t l, std::uint32_t i) {
        bool alone = false;
        trace_.step(thread, l, [&](auto at) {
            alone = at.compare_exchange(tail(l), i + 1, none);
            return Kind::other_move;
        });
        return alone;
    }

    void grant(std::uint32_t thread, std::uint32_t l, const Successor &to) {
        trace_.step(thread, l, [&](auto at) {
            if (!faults_.happens(Fault::lost_wakeup, thread)) {
                at.store(record(to.record - 1).status, to.word);
            }
            return Kind::other_move;
        });
    }

    // Draw, and Watch if the ticket is not the grant.
    void draw(std::uint32_t thread, std::uint32_t i) {
        const auto entry = [](std::uint32_t ticket, std::uint32_t counters) { return ticket == (counters & 65535); };
        std::uint32_t ticket = 0;
        const Kind drawn = trace_.step(thread, 0, [&](auto at) {
            const std::uint32_t before = at.fetch_add(words_->counters.word, 65536); // a ticket of 65,535 becomes 0
            ticket = before >> 16;
            at.store(record(i).status, ticket);
            return entry(ticket, before) ? Kind::root_entry : Kind::other_move;
        });
        if (drawn == Kind::other_move) {
            until_moved(thread, 0, [&](auto at) { return entry(ticket, at.load(words_->counters.word)) ? Kind::root_entry : Kind::stay; });
        }
    }

    // The grant is the thread's own ticket until the thread raises it. From 65,535 it goes to 0 without changing the other counter.
    void raise(std::uint32_t thread, std::uint32_t i) {
        trace_.step(thread, 0, [&](auto at) {
            const std::uint32_t ticket = at.load(record(i).status);
            at.fetch_add(words_->counters.word, ticket == 65535 ? 0u - 65535u : 1u);
            return Kind::other_move;
        });
    }

    hmcs_tree tree_;
    Trace trace_;
    Faults faults_;
    std::unique_ptr<Words> words_;
};

} // namespace hmcs

#endif
