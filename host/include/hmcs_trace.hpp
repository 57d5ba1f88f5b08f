// Traces of a real lock for C++17: what a lock calls at each atomic step, and three ways to record the steps for the library to check.
// CPP.md has a complete example.
//
// A lock is a template over its trace and takes each step of the step table (SPECIFICATION.md) as
//     trace.step(thread, domain, [&](auto at) { /* the step's accesses */ return kind; });
// The domain is where the step happens, the thread's home if it was idle or inside; the kind is what the step turned out to be. The
// accesses go through `at`, to words of type Trace::Word<Orders>, which hold 32-bit numbers. The three traces:
//   None        records nothing, and is compiled away.
//   OneByOne    takes the step and writes its entry under one mutex. The order is exact for any type of words; threads no longer run in parallel.
//   ThreadLogs  has a log for each thread; threads share no words except those of the lock. Each access logs what it saw; afterwards
//               written() finds an order of all steps in which every access sees exactly that.
// A trace covers one lock, from its first step on: the check of a journal starts with a fresh lock, so no part of a trace may be left out.
//
// Three traps if you write your own trace:
//   1. A sequence number that a thread draws after its access is not the order of the accesses: another thread may run between the access and the number.
//      Then a correct lock is sometimes refused. Draw the number and make the access under one mutex, or record what each access saw.
//   2. A ticket lock with two words cannot be traced access by access: the step Draw reads both counters at once, and they may change between an
//      increment of one and a read of the other. Keep both counters in one word, as in hmcs_lock.hpp, or take each step under one mutex.
//   3. Record stays too. If a thread keeps waiting after its grant, it has a stay where the step table has an entry. Without stays such a
//      lost wakeup looks like a thread that has not had a turn yet, and the journal is accepted.
#ifndef HMCS_TRACE_HPP
#define HMCS_TRACE_HPP

#include "hmcs.hpp"

#include <algorithm>
#include <atomic>
#include <chrono>
#include <cstddef>
#include <cstdint>
#include <mutex>
#include <set>
#include <unordered_map>
#include <utility>
#include <vector>

namespace hmcs {
namespace trace {

// Steps in the order they were taken, each with thread, kind and domain, for hmcs::check_steps.
struct Steps {
    std::vector<std::uint16_t> threads;
    std::vector<std::uint16_t> kinds;
    std::vector<std::uint16_t> domains;

    std::size_t size() const { return threads.size(); }

    void add(std::uint32_t thread, Kind kind, std::uint32_t domain) {
        threads.push_back(hmcs::detail::thread_of(thread));
        kinds.push_back(static_cast<std::uint16_t>(kind));
        domains.push_back(static_cast<std::uint16_t>(std::min<std::uint32_t>(domain, 65535))); // no domain has that number
    }

    // The journal of the steps, for hmcs::check_journal; it has no domains.
    std::vector<std::uint8_t> journal() const {
        JournalWriter writer;
        for (std::size_t k = 0; k < size(); ++k) {
            writer.add(threads[k], static_cast<Kind>(kinds[k]));
        }
        return writer.bytes();
    }
};

// What a trace has recorded. If it is not whole, no order of all logged steps agrees with what their accesses saw, and these are the steps up to there.
// Then the accesses of one step were not atomic together, or the lock's memory orders are too weak for any order, or too_long says why.
struct Written {
    Steps steps;
    bool whole = true;
    bool too_long = false; // a thread wrote more than 16,777,215 times
};

// The memory orders of a lock's words. The step table makes accesses one at a time; it says nothing about weaker orders than these.
struct SequentiallyConsistent {
    static constexpr std::memory_order load = std::memory_order_seq_cst;
    static constexpr std::memory_order store = std::memory_order_seq_cst;
    static constexpr std::memory_order update = std::memory_order_seq_cst; // exchange, compare_exchange, fetch_add
};

// A word without a trace.
template <class Orders = SequentiallyConsistent> class PlainWord {
  public:
    explicit PlainWord(std::uint32_t value = 0) : value_(value) {}

  private:
    friend struct PlainAccess;
    std::atomic<std::uint32_t> value_;
};

// Accesses to plain words.
struct PlainAccess {
    template <class O> std::uint32_t load(const PlainWord<O> &word) const { return word.value_.load(O::load); }
    template <class O> void store(PlainWord<O> &word, std::uint32_t value) const { word.value_.store(value, O::store); }
    template <class O> std::uint32_t exchange(PlainWord<O> &word, std::uint32_t value) const { return word.value_.exchange(value, O::update); }
    // Whether the word was as expected; then it becomes the value.
    template <class O> bool compare_exchange(PlainWord<O> &word, std::uint32_t expected, std::uint32_t value) const {
        return word.value_.compare_exchange_strong(expected, value, O::update, O::load);
    }
    // Adds modulo 2^32, and returns the old value.
    template <class O> std::uint32_t fetch_add(PlainWord<O> &word, std::uint32_t amount) const { return word.value_.fetch_add(amount, O::update); }
};

// No trace.
class None {
  public:
    template <class Orders = SequentiallyConsistent> using Word = PlainWord<Orders>;

    explicit None(std::size_t = 0) {}

    template <class Take> Kind step(std::uint32_t, std::uint32_t, Take &&take) { return take(PlainAccess{}); }
};

// Each step and its entry under one mutex. A lock may also have its own words of any type and not use `at`, if it accesses them only in steps.
class OneByOne {
  public:
    template <class Orders = SequentiallyConsistent> using Word = PlainWord<Orders>;

    explicit OneByOne(std::size_t threads) : taken_(threads) {}

    template <class Take> Kind step(std::uint32_t thread, std::uint32_t domain, Take &&take) {
        const std::lock_guard<std::mutex> one(mutex_);
        const Kind kind = take(PlainAccess{});
        steps_.add(thread, kind, domain);
        ++taken_[thread];
        return kind;
    }

    // How many steps a thread has taken; call it from that thread, or when all have ended.
    std::size_t taken(std::uint32_t thread) const { return taken_[thread]; }

    // Call it when all threads have ended.
    Written written() const { return Written{steps_, true, false}; }

  private:
    std::mutex mutex_;
    Steps steps_;
    std::vector<std::size_t> taken_;
};

namespace detail {

// An access: the word, the write that it saw (0 for the word's first value), and its own write, 0 for none. A write is named by its thread and
// how many writes this thread has made.
struct Seen {
    const void *word;
    std::uint32_t saw;
    std::uint32_t wrote;
};

// A step; its accesses begin at first. The time only chooses among orders that agree with all accesses.
struct Logged {
    std::int64_t time;
    std::size_t first;
    Kind kind;
    std::uint32_t domain;
};

constexpr std::uint32_t most_writes = (1u << 24) - 1;

struct alignas(64) Log {
    std::uint32_t thread = 0;
    std::uint32_t writes = 0;
    bool too_long = false;
    std::vector<Logged> steps;
    std::vector<Seen> seen;

    std::uint32_t next_write() {
        too_long = too_long || writes == most_writes;
        writes = writes % most_writes + 1;
        return thread << 24 | writes;
    }

    std::size_t end_of(std::size_t step) const { return step + 1 < steps.size() ? steps[step + 1].first : seen.size(); }
};

// Finds an order. It is known which write every access saw, and which write each write replaced. A step can come next if each of its accesses saw
// the current write of its word, and no remaining step has seen a write that it replaces. A step that can come next never has to wait for another, so if
// there is an order, one is found.
class Merge {
  public:
    explicit Merge(const std::vector<Log> &logs) : logs_(logs), readers_(logs.size()), next_(logs.size(), 0) {
        for (const Log &log : logs_) {
            result_.too_long = result_.too_long || log.too_long;
            readers_[log.thread].resize(log.writes + 1);
        }
        for (const Log &log : logs_) {
            for (const Seen &seen : log.seen) {
                Word &word = words_[seen.word];
                if (seen.wrote == 0) {
                    ++readers(word, seen.saw);
                }
            }
        }
    }

    Written run() {
        if (result_.too_long) {
            result_.whole = false;
            return result_;
        }
        for (const Log &log : logs_) {
            put_head(log);
        }
        while (take_one()) {
        }
        result_.whole = heads_.empty();
        return result_;
    }

  private:
    struct Word {
        std::uint32_t now = 0;           // its current write
        std::uint32_t first_readers = 0; // remaining accesses that saw its first value and wrote nothing
    };

    // Remaining accesses that saw a write and wrote nothing.
    std::uint32_t &readers(Word &word, std::uint32_t write) { return write == 0 ? word.first_readers : readers_[write >> 24][write & most_writes]; }

    void put_head(const Log &log) {
        if (next_[log.thread] < log.steps.size()) {
            heads_.emplace(log.steps[next_[log.thread]].time, log.thread);
        }
    }

    // Of the steps that can come next, the one with the earliest time; false if there is none.
    bool take_one() {
        for (auto head = heads_.begin(); head != heads_.end(); ++head) {
            const Log &log = logs_[head->second];
            if (can_take(log, next_[log.thread])) {
                const Logged &step = log.steps[next_[log.thread]++];
                result_.steps.add(log.thread, step.kind, step.domain);
                heads_.erase(head);
                put_head(log);
                return true;
            }
        }
        return false;
    }

    // Takes the accesses of a step one after another; if one cannot come next, the others are undone.
    bool can_take(const Log &log, std::size_t step) {
        for (std::size_t k = log.steps[step].first; k < log.end_of(step); ++k) {
            Word &word = words_.find(log.seen[k].word)->second;
            if (!access(word, log.seen[k])) {
                undo(log, log.steps[step].first, k);
                return false;
            }
        }
        return true;
    }

    bool access(Word &word, const Seen &seen) {
        if (word.now != seen.saw || (seen.wrote != 0 && readers(word, seen.saw) != 0)) {
            return false;
        }
        if (seen.wrote != 0) {
            word.now = seen.wrote;
        } else {
            --readers(word, seen.saw);
        }
        return true;
    }

    void undo(const Log &log, std::size_t first, std::size_t end) {
        for (std::size_t k = end; k-- > first;) {
            Word &word = words_.find(log.seen[k].word)->second;
            if (log.seen[k].wrote != 0) {
                word.now = log.seen[k].saw;
            } else {
                ++readers(word, log.seen[k].saw);
            }
        }
    }

    const std::vector<Log> &logs_;
    std::unordered_map<const void *, Word> words_;
    std::vector<std::vector<std::uint32_t>> readers_; // by thread and write
    std::vector<std::size_t> next_;                   // by thread, its first remaining step
    std::set<std::pair<std::int64_t, std::uint32_t>> heads_;
    Written result_;
};

} // namespace detail

// A log for each thread. A word is 64 bits wide: it holds its value and the name of the write it came from, so each access knows which write it saw. A
// store is an exchange, since it must see what it replaces. An access that adds loops until it succeeds, and is logged only then.
template <class Clock> class ThreadLogsBy {
  public:
    template <class Orders = SequentiallyConsistent> class Word {
      public:
        explicit Word(std::uint32_t value = 0) : word_(value) {}

      private:
        friend class ThreadLogsBy;
        std::atomic<std::uint64_t> word_; // the write in the high half
    };

    class Access {
      public:
        template <class O> std::uint32_t load(const Word<O> &word) const { return saw(&word, word.word_.load(O::load), 0); }

        template <class O> void store(Word<O> &word, std::uint32_t value) const { exchange(word, value); }

        template <class O> std::uint32_t exchange(Word<O> &word, std::uint32_t value) const {
            const std::uint32_t write = log_->next_write();
            return saw(&word, word.word_.exchange(packed(write, value), O::update), write);
        }

        template <class O> bool compare_exchange(Word<O> &word, std::uint32_t expected, std::uint32_t value) const {
            std::uint64_t old = word.word_.load(O::load);
            std::uint32_t write = 0;
            while (static_cast<std::uint32_t>(old) == expected) {
                write = write != 0 ? write : log_->next_write();
                if (word.word_.compare_exchange_weak(old, packed(write, value), O::update, O::load)) {
                    saw(&word, old, write);
                    return true;
                }
            }
            saw(&word, old, 0);
            return false;
        }

        template <class O> std::uint32_t fetch_add(Word<O> &word, std::uint32_t amount) const {
            const std::uint32_t write = log_->next_write();
            std::uint64_t old = word.word_.load(O::load);
            while (!word.word_.compare_exchange_weak(old, packed(write, static_cast<std::uint32_t>(old) + amount), O::update, O::load)) {
            }
            return saw(&word, old, write);
        }

      private:
        friend class ThreadLogsBy;
        explicit Access(detail::Log *log) : log_(log) {}

        static std::uint64_t packed(std::uint32_t write, std::uint32_t value) { return std::uint64_t{write} << 32 | value; }

        std::uint32_t saw(const void *word, std::uint64_t old, std::uint32_t wrote) const {
            log_->seen.push_back(detail::Seen{word, static_cast<std::uint32_t>(old >> 32), wrote});
            return static_cast<std::uint32_t>(old);
        }

        detail::Log *log_;
    };

    // For this many threads, at most HMCS_THREADS.
    explicit ThreadLogsBy(std::size_t threads) : logs_(std::min<std::size_t>(threads, HMCS_THREADS)) {
        for (std::size_t i = 0; i < logs_.size(); ++i) {
            logs_[i].thread = static_cast<std::uint32_t>(i);
        }
    }

    template <class Take> Kind step(std::uint32_t thread, std::uint32_t domain, Take &&take) {
        detail::Log &log = logs_[thread];
        const std::int64_t time = Clock::now().time_since_epoch().count();
        const std::size_t first = log.seen.size();
        const Kind kind = take(Access(&log));
        log.steps.push_back(detail::Logged{time, first, kind, domain});
        return kind;
    }

    // How many steps a thread has taken; call it from that thread, or when all have ended.
    std::size_t taken(std::uint32_t thread) const { return logs_[thread].steps.size(); }

    // Call it when all threads have ended.
    Written written() const { return detail::Merge(logs_).run(); }

  private:
    std::vector<detail::Log> logs_;
};

using ThreadLogs = ThreadLogsBy<std::chrono::steady_clock>;

} // namespace trace
} // namespace hmcs

#endif
