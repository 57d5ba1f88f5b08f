// Real locks on real threads: trees, a trace that shakes the threads and ends runs that hang, and the comparison of steps with the model. Shared by the
// tests and the bench of real locks.
#ifndef HMCS_TEST_REAL_THREADS_HPP
#define HMCS_TEST_REAL_THREADS_HPP

#include "hmcs_lock.hpp"

#include <algorithm>
#include <atomic>
#include <chrono>
#include <cstdint>
#include <memory>
#include <thread>
#include <vector>

// Thrown by a trace when a thread gives up waiting.
struct Abandoned {};

// A trace in which threads yield at random, so they meet at every row, and at each stay. If no thread of the lock has taken another step for longer than
// the patience, the waiting threads give up; no thread gives up elsewhere.
template <class Inner> class Shaken : public Inner {
  public:
    explicit Shaken(std::size_t threads) : Inner(threads), own_(threads) {
        for (std::size_t i = 0; i < threads; ++i) {
            own_[i].random = static_cast<std::uint32_t>(i) + 1;
        }
    }

    void seed(std::uint32_t seed) {
        for (Own &own : own_) {
            own.random ^= seed * 2654435761u;
            own.random += own.random == 0;
        }
    }

    void patience(std::chrono::milliseconds patience) { patience_ = patience; }

    bool abandoned() const { return stop_; }

    template <class Take> hmcs::Kind step(std::uint32_t thread, std::uint32_t domain, Take &&take) {
        Own &own = own_[thread];
        own.random ^= own.random << 13, own.random ^= own.random >> 17, own.random ^= own.random << 5;
        if (own.random % 8 == 0) {
            std::this_thread::yield();
        }
        const hmcs::Kind kind = Inner::step(thread, domain, take);
        if (kind == hmcs::Kind::stay) {
            stay(own);
        } else {
            moves_.fetch_add(1, std::memory_order_relaxed);
            own.stays = 0;
        }
        return kind;
    }

  private:
    struct alignas(64) Own {
        std::uint32_t random = 1;
        std::uint64_t stays = 0;
        std::uint64_t moves = 0;                     // of all threads, at the last check
        std::chrono::steady_clock::time_point since; // when this number was first seen
    };

    void stay(Own &own) {
        std::this_thread::yield();
        if (++own.stays % 64 == 0) {
            const auto now = std::chrono::steady_clock::now();
            const std::uint64_t moves = moves_.load(std::memory_order_relaxed);
            if (moves != own.moves || own.stays == 64) {
                own.moves = moves;
                own.since = now;
            } else if (now - own.since > patience_) {
                stop_.store(true, std::memory_order_relaxed);
            }
        }
        if (stop_.load(std::memory_order_relaxed)) {
            throw Abandoned{};
        }
    }

    std::vector<Own> own_;
    std::chrono::milliseconds patience_{60000};
    std::atomic<std::uint64_t> moves_{0};
    std::atomic<bool> stop_{false};
};

// A tree of some levels: domains in a chain, and further leaves next to the deepest, as many as the threads can fill with two each.
inline hmcs::Tree tree_of_levels(hmcs::RootKind root, std::uint32_t levels, std::uint32_t threads, std::uint32_t threshold) {
    hmcs::Tree tree(root);
    std::vector<std::uint32_t> chain = {0};
    while (chain.size() < levels) {
        chain.push_back(tree.add_domain(chain.back(), threshold));
    }
    std::vector<std::uint32_t> leaves = {chain.back()};
    for (std::size_t k = chain.size() - 1; k > 0 && (leaves.size() + 1) * 2 <= threads; --k) {
        leaves.push_back(tree.add_domain(chain[k - 1], threshold + 1));
    }
    for (std::uint32_t i = 0; i < threads; ++i) {
        tree.add_thread(leaves[i % leaves.size()]);
    }
    return tree;
}

// Yields this many times: others run meanwhile.
inline void yield(std::uint32_t times) {
    for (std::uint32_t k = 0; k < times; ++k) {
        std::this_thread::yield();
    }
}

// Every thread enters this many times, once all have started, and works inside and after it left; a thread that gives up waiting ends.
template <class Lock, class Inside, class Outside> void enter(Lock &lock, std::uint32_t threads, std::uint32_t times, Inside inside, Outside outside) {
    std::vector<std::thread> running;
    std::atomic<std::uint32_t> started{0};
    for (std::uint32_t i = 0; i < threads; ++i) {
        running.emplace_back([&lock, &started, i, threads, times, &inside, &outside] {
            for (started.fetch_add(1); started.load() < threads;) {
                std::this_thread::yield();
            }
            try {
                for (std::uint32_t k = 0; k < times; ++k) {
                    lock.lock(i);
                    inside();
                    lock.unlock(i);
                    outside();
                }
            } catch (const Abandoned &) {
            }
        });
    }
    for (std::thread &thread : running) {
        thread.join();
    }
}

// Compares steps with the model's, from a fresh lock: the first with another kind, and the first with another kind or domain; the number of steps if
// there is none. Also how many entries the model had before, and how many threads were not idle at the end.
struct Compared {
    std::size_t kind = 0;
    std::size_t kind_or_domain = 0;
    std::size_t entries = 0;
    std::size_t not_idle = 0;
};

// The position of the first step that the library's check refuses, or the number of steps. It is checked in pieces.
inline std::size_t first_wrong(const hmcs::Tree &tree, const hmcs::trace::Steps &steps) {
    constexpr std::size_t piece = 50;
    hmcs_state state = hmcs::Lock(tree).state();
    for (std::size_t from = 0; from < steps.size(); from += piece) {
        const std::size_t to = std::min(from + piece, steps.size());
        const auto part = [&](const std::vector<std::uint16_t> &all) {
            return std::vector<std::uint16_t>(all.begin() + static_cast<std::ptrdiff_t>(from), all.begin() + static_cast<std::ptrdiff_t>(to));
        };
        const hmcs::StepsResult found = hmcs::check_steps(tree, state, part(steps.threads), part(steps.kinds), part(steps.domains));
        if (found.refused()) {
            return from + found.refusal.place;
        }
    }
    return steps.size();
}

inline Compared compared(const hmcs::Tree &tree, const hmcs::trace::Steps &steps) {
    Compared result{steps.size(), steps.size(), 0, 0};
    hmcs::Lock model(tree);
    for (std::size_t k = 0; k < steps.size() && result.kind == steps.size(); ++k) {
        const hmcs::StepResult step = model.step(steps.threads[k]);
        const bool other_kind = step.refused() || static_cast<std::uint16_t>(step.kind) != steps.kinds[k];
        result.kind = other_kind ? k : result.kind;
        result.kind_or_domain = other_kind || step.domain != steps.domains[k] ? std::min(k, result.kind_or_domain) : result.kind_or_domain;
        result.entries += step.kind == hmcs::Kind::root_entry || step.kind == hmcs::Kind::passed_entry || step.kind == hmcs::Kind::crossed_entry;
    }
    for (std::size_t i = 0; i < tree.words().threads; ++i) {
        result.not_idle += model.state().places.rows[i] != HMCS_ROW_IDLE;
    }
    return result;
}

#endif
