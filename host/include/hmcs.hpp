// Lyumadeon for C++17: a lock owned by the host, with its steps and runs, and lock files. Only two things throw: the allocator, and the first use of a
// library that does not match this header.
#ifndef HMCS_HPP
#define HMCS_HPP

#include "hmcs.h"

#include <algorithm>
#include <array>
#include <cstddef>
#include <cstdint>
#include <iterator>
#include <numeric>
#include <optional>
#include <stdexcept>
#include <string>
#include <string_view>
#include <vector>
#if __cplusplus >= 202002L
#include <span>
#endif

namespace hmcs {

// Number and place of an answer; 0 and 0 for accepted. It is not a bool, so nobody can read it the wrong way round.
struct [[nodiscard]] Refusal {
    std::uint32_t number = 0;
    std::size_t place = 0; // for 15, 25, 26 and 29 a position in a text, a journal or a list of steps of any length

    bool accepted() const noexcept { return number == 0; }
    bool refused() const noexcept { return number != 0; }
    const char *text() const noexcept { return hmcs_refusal_text(number); }
};

// The first fields of every result.
struct [[nodiscard]] Result {
    Refusal refusal;

    bool accepted() const noexcept { return refusal.accepted(); }
    bool refused() const noexcept { return refusal.refused(); }
};

// Where a thread is: a row of the step table (enum hmcs_row) and the parts that the row has; the others are 0.
struct Place {
    std::uint8_t row = HMCS_ROW_IDLE;
    std::uint8_t domain = 0;
    std::uint16_t peer = 0;
    std::uint64_t word = 0;
};

// The place of a thread. Its number must be below HMCS_THREADS.
inline Place place(const hmcs_state &state, std::size_t thread) noexcept {
    return Place{state.places.rows[thread], state.places.domains[thread], state.places.peers[thread], state.places.words[thread]};
}

inline void set_place(hmcs_state &state, std::size_t thread, const Place &place) noexcept {
    state.places.rows[thread] = place.row;
    state.places.domains[thread] = place.domain;
    state.places.peers[thread] = place.peer;
    state.places.words[thread] = place.word;
}

// The layout of a state in versions 2.x of hmcs.h, for states that a host saved then. Its places were an array of structs.
struct StateOfVersion2 {
    struct PlaceOfVersion2 {
        std::uint8_t row;
        std::uint8_t domain;
        std::uint16_t peer;
        std::uint64_t word;
    };
    std::uint16_t tails[HMCS_DOMAINS];
    std::uint16_t nexts[HMCS_RECORDS];
    std::uint64_t statuses[HMCS_RECORDS];
    PlaceOfVersion2 places[HMCS_THREADS];
    std::uint16_t ticket;
    std::uint16_t grant;
    std::uint64_t entries[HMCS_DOMAINS];
    std::uint64_t tenures[HMCS_DOMAINS];
    std::uint64_t longest[HMCS_DOMAINS];
};
static_assert(sizeof(StateOfVersion2) == 8968, "the layout of version 2");

// The same state in the current layout. Any state is read; the calls refuse by 10 what is not well formed.
inline hmcs_state from_version_2(const StateOfVersion2 &saved) noexcept {
    hmcs_state state{};
    std::copy(std::begin(saved.tails), std::end(saved.tails), std::begin(state.tails));
    std::copy(std::begin(saved.nexts), std::end(saved.nexts), std::begin(state.nexts));
    std::copy(std::begin(saved.statuses), std::end(saved.statuses), std::begin(state.statuses));
    for (std::size_t i = 0; i < HMCS_THREADS; ++i) {
        const StateOfVersion2::PlaceOfVersion2 &p = saved.places[i];
        set_place(state, i, Place{p.row, p.domain, p.peer, p.word});
    }
    state.ticket = saved.ticket;
    state.grant = saved.grant;
    std::copy(std::begin(saved.entries), std::end(saved.entries), std::begin(state.entries));
    std::copy(std::begin(saved.tenures), std::end(saved.tenures), std::begin(state.tenures));
    std::copy(std::begin(saved.longest), std::end(saved.longest), std::begin(state.longest));
    return state;
}

// Whether two states are the same, field by field: their padding may differ.
inline bool same(const hmcs_state &a, const hmcs_state &b) noexcept {
    return std::equal(std::begin(a.tails), std::end(a.tails), std::begin(b.tails)) && std::equal(std::begin(a.nexts), std::end(a.nexts), std::begin(b.nexts)) &&
           std::equal(std::begin(a.statuses), std::end(a.statuses), std::begin(b.statuses)) &&
           std::equal(std::begin(a.places.rows), std::end(a.places.rows), std::begin(b.places.rows)) &&
           std::equal(std::begin(a.places.domains), std::end(a.places.domains), std::begin(b.places.domains)) &&
           std::equal(std::begin(a.places.peers), std::end(a.places.peers), std::begin(b.places.peers)) &&
           std::equal(std::begin(a.places.words), std::end(a.places.words), std::begin(b.places.words)) && a.ticket == b.ticket && a.grant == b.grant &&
           std::equal(std::begin(a.entries), std::end(a.entries), std::begin(b.entries)) &&
           std::equal(std::begin(a.tenures), std::end(a.tenures), std::begin(b.tenures)) &&
           std::equal(std::begin(a.longest), std::end(a.longest), std::begin(b.longest));
}

namespace detail {

inline std::string version_text(std::uint32_t number) {
    return std::to_string(number / 10000) + "." + std::to_string(number / 100 % 100) + "." + std::to_string(number % 100);
}

// Throws std::runtime_error if the linked library does not match this header. It checks once.
inline void check_library() {
    static const bool fits = hmcs_library_fits() != 0;
    if (!fits) {
        const std::uint32_t library = hmcs_version();
        throw std::runtime_error("hmcs: the header is version " HMCS_VERSION " and the library " + version_text(library) +
                                 (library == HMCS_VERSION_NUMBER ? ", with other structs; compile both from one source"
                                                                 : "; compile again with the header that belongs to the library"));
    }
}

// The threshold, or 0, which is refused (8), if it does not fit.
inline std::uint16_t threshold_of(std::uint32_t threshold) noexcept { return static_cast<std::uint16_t>(threshold <= 65535 ? threshold : 0); }

// The thread number, or 65,535, which is refused (12), if it does not fit.
inline std::uint16_t thread_of(std::uint32_t thread) noexcept { return static_cast<std::uint16_t>(std::min<std::uint32_t>(thread, 65535)); }

} // namespace detail

// The kind of lock at the root of a tree.
enum class RootKind { queue, ticket };

// A tree, built domain by domain and thread by thread, with a queue at its root unless another kind is given. What does not fit is counted but not
// stored, so the calls refuse it.
class Tree {
  public:
    Tree() : Tree(RootKind::queue) {}

    explicit Tree(RootKind root) : words_{} {
        detail::check_library(); // every call takes a tree, or checks itself
        words_.domains = 1;
        words_.ticket_root = root == RootKind::ticket ? 1 : 0;
    }

    RootKind root() const noexcept { return words_.ticket_root != 0 ? RootKind::ticket : RootKind::queue; }

    // Adds a domain below another and returns its number. Numbers that do not fit are refused, not truncated: a parent above 255 is refused like 255 (6),
    // a threshold above 65,535 like 0 (8). A domain without a thread in it or below it is refused by 16.
    std::uint32_t add_domain(std::uint32_t parent, std::uint32_t threshold) noexcept {
        const std::uint32_t d = words_.domains++;
        if (d < HMCS_DOMAINS) {
            words_.parents[d] = byte_of(parent);
            words_.thresholds[d] = detail::threshold_of(threshold);
        }
        return d;
    }

    // Adds a thread in a domain and returns its number. A home above 255 is refused like 255 (9).
    std::uint32_t add_thread(std::uint32_t home) noexcept {
        const std::uint32_t i = words_.threads++;
        if (i < HMCS_THREADS) {
            words_.homes[i] = byte_of(home);
        }
        return i;
    }

    const hmcs_tree &words() const noexcept { return words_; }

    // The tree with these fields.
    static Tree of(const hmcs_tree &words) {
        Tree tree;
        tree.words_ = words;
        return tree;
    }

  private:
    // No domain has the number 255, so a number that does not fit is refused, not truncated.
    static std::uint8_t byte_of(std::uint32_t domain) noexcept { return static_cast<std::uint8_t>(std::min<std::uint32_t>(domain, 255)); }

    hmcs_tree words_;
};

// The counts of a run.
struct Counts {
    std::uint32_t steps = 0, entries = 0, stays = 0, root = 0, passed = 0, crossed = 0;
};

struct [[nodiscard]] RunResult : Result {
    Counts counts;
    std::vector<std::uint16_t> trace; // the entering threads
};

// Waits of attempts that finished within a run. Without an attempt all five are 0.
struct Waits {
    std::uint64_t attempts = 0;
    std::uint64_t total = 0;     // other threads' entries, over all attempts; UINT64_MAX if it is larger
    std::uint64_t largest = 0;   // of one attempt
    std::uint64_t numerator = 0; // of the mean, total over attempts in lowest terms
    std::uint64_t denominator = 0;
};

// The waits of both together: the sum of attempts and totals, the larger of the largest waits, and the mean in lowest terms.
inline Waits joined(const Waits &a, const Waits &b) noexcept {
    const auto sum = [](std::uint64_t x, std::uint64_t y) { return x > UINT64_MAX - y ? UINT64_MAX : x + y; };
    Waits waits{sum(a.attempts, b.attempts), sum(a.total, b.total), std::max(a.largest, b.largest), 0, 0};
    if (waits.attempts != 0) {
        const std::uint64_t divisor = std::gcd(waits.total, waits.attempts);
        waits.numerator = waits.total / divisor;
        waits.denominator = waits.attempts / divisor;
    }
    return waits;
}

// The attempts under way: for each thread 0 if it has none, otherwise one more than the other threads' entries since it began.
using UnderWay = std::array<std::uint64_t, HMCS_THREADS>;

// A run with waits; if refused, no rows.
struct [[nodiscard]] WaitsResult {
    RunResult run;
    std::vector<Waits> threads; // one for each thread
    Waits all;                  // of all threads together

    bool accepted() const noexcept { return run.accepted(); }
    bool refused() const noexcept { return run.refused(); }
};

// The waits of several runs one after another.
struct WaitsSoFar {
    std::vector<Waits> threads;           // one for each thread: its finished attempts
    Waits all;                            // of all threads together
    std::vector<std::uint64_t> under_way; // one for each thread: its unfinished attempt, as in UnderWay
};

namespace detail {

// The state after a run, and its result.
template <typename Reply> void keep(const Reply &reply, hmcs_state &state, RunResult &result) {
    state = reply.state;
    result.refusal = Refusal{reply.number, reply.place};
    result.counts = Counts{reply.steps, reply.entries, reply.stays, reply.root, reply.passed, reply.crossed};
    result.trace.resize(reply.entries);
}

} // namespace detail

// Runs a schedule from a state and the attempts under way, both owned by the host, and updates both; if refused, they are unchanged. If all attempts under
// way are 0, the waits are those of attempts that begin and finish within the run.
inline WaitsResult run_waits(const Tree &tree, hmcs_state &state, UnderWay &under_way, const std::uint16_t *schedule, std::size_t length) {
    WaitsResult result;
    std::vector<std::uint64_t> numbers((HMCS_THREADS + 1) * HMCS_NUMBERS_PER_WAITS_ROW);
    result.threads.reserve(HMCS_THREADS + 1);                      // nothing allocates after the call, so no result is lost
    result.run.trace.resize(std::min<std::size_t>(length, 65536)); // a longer schedule is refused (11) before the trace is checked
    const hmcs_waits_reply reply = hmcs_run_waits_on(tree.words(), state, schedule, length, result.run.trace.data(), result.run.trace.size(), numbers.data(),
                                                     numbers.size(), under_way.data());
    detail::keep(reply, state, result.run);
    for (std::size_t row = 0; row < reply.rows; ++row) {
        const std::uint64_t *n = numbers.data() + row * HMCS_NUMBERS_PER_WAITS_ROW;
        result.threads.push_back(Waits{n[0], n[1], n[2], n[3], n[4]});
    }
    if (result.accepted()) {
        result.all = result.threads.back();
        result.threads.pop_back();
    }
    return result;
}

inline WaitsResult run_waits(const Tree &tree, hmcs_state &state, UnderWay &under_way, const std::vector<std::uint16_t> &schedule) {
    return run_waits(tree, state, under_way, schedule.data(), schedule.size());
}

// What a step was.
enum class Kind : std::uint32_t {
    stay = HMCS_STAY,
    other_move = HMCS_OTHER_MOVE,
    root_entry = HMCS_ROOT_ENTRY,
    passed_entry = HMCS_PASSED_ENTRY,
    crossed_entry = HMCS_CROSSED_ENTRY,
    leaving = HMCS_LEAVING
};

inline const char *text(Kind kind) noexcept { return hmcs_kind_text(static_cast<std::uint32_t>(kind)); }

// What a step did; if refused, kind stay and domain 0.
struct [[nodiscard]] StepResult : Result {
    Kind kind = Kind::stay;
    std::uint32_t domain = 0; // where the step happened; the thread's home if it was idle or inside
};

// Why a thread waits; if refused, no threads.
struct [[nodiscard]] ChainResult : Result {
    std::vector<std::uint16_t> threads; // the thread itself first; each waits for the next, and the last can move
};

// What one step of a run was: a row of hmcs_run_kinds.
struct StepKind {
    Kind kind = Kind::stay;
    std::uint32_t domain = 0; // where the step happened; the thread's home if it was idle or inside
};

// A run with the kind and domain of each step; if refused, no steps.
struct [[nodiscard]] KindsResult {
    RunResult run;
    std::vector<StepKind> steps; // one for each turn, in schedule order

    bool accepted() const noexcept { return run.accepted(); }
    bool refused() const noexcept { return run.refused(); }
};

// Whether the calls accept a saved state: refused by 4 to 9 and 16 for its tree, and by 10.
inline Refusal check_state(const Tree &tree, const hmcs_state &state) {
    const hmcs_answer answer = hmcs_check_state(tree.words(), state);
    return Refusal{answer.number, answer.place};
}

// What a lock has counted for a domain. A tenure is a domain's period at the head of the queue above it, and its length is how many of the
// domain's members have the lock in it, one after another.
struct Tenures {
    std::uint64_t entries = 0; // of the threads under the domain
    std::uint64_t tenures = 0; // that have started
    std::uint64_t longest = 0; // of them, including the current one; at most the domain's threshold
};

// A lock owned by the host: a tree and a state, stepped in place.
class Lock {
  public:
    // A fresh lock, with the counters of a ticket root at the start. refusal() says whether the tree was accepted. If refused, the state is fresh
    // too, and every step is refused.
    explicit Lock(const Tree &tree, std::uint16_t start = 0) : tree_(tree.words()), state_{} { refusal_ = of(hmcs_fresh_in_place(tree_, &state_, start)); }

    // A lock with a saved state. A state that is not well formed is refused by 10, and then every step is refused too.
    static Lock saved(const Tree &tree, const hmcs_state &state) {
        Lock lock(tree);
        lock.state_ = state;
        lock.refusal_ = check_state(tree, state);
        return lock;
    }

    const Refusal &refusal() const noexcept { return refusal_; }
    bool accepted() const noexcept { return refusal_.accepted(); }
    bool refused() const noexcept { return refusal_.refused(); }
    const hmcs_state &state() const noexcept { return state_; }
    const hmcs_tree &tree() const noexcept { return tree_; }

    // One step of a thread. If refused, the state is unchanged. A number above 65,535 is refused like 65,535.
    StepResult step(std::uint32_t thread) noexcept {
        const hmcs_step_answer a = hmcs_step_in_place(tree_, &state_, detail::thread_of(thread));
        under_way_known_ = under_way_known_ && a.number != 0;
        return StepResult{{Refusal{a.number, a.place}}, static_cast<Kind>(a.kind), a.domain};
    }

    // Runs a schedule. If refused, the state is unchanged and no step is taken.
    RunResult run(const std::uint16_t *schedule, std::size_t length) {
        RunResult result;
        result.trace.resize(std::min<std::size_t>(length, 65536)); // a longer schedule is refused (11) before the trace is checked
        const hmcs_run_reply reply = hmcs_run(tree_, state_, schedule, length, result.trace.data(), result.trace.size());
        detail::keep(reply, state_, result);
        under_way_known_ = under_way_known_ && result.counts.steps == 0;
        return result;
    }

    RunResult run(const std::vector<std::uint16_t> &schedule) { return run(schedule.data(), schedule.size()); }
#if __cplusplus >= 202002L
    RunResult run(std::span<const std::uint16_t> schedule) { return run(schedule.data(), schedule.size()); }
#endif

    // Runs a schedule, and returns kind and domain of each step. If refused, the state is unchanged and no step is taken.
    KindsResult run_kinds(const std::uint16_t *schedule, std::size_t length) {
        KindsResult result;
        const std::size_t room = std::min<std::size_t>(length, 65536); // a longer schedule is refused (11) before the buffers are checked
        std::vector<std::uint16_t> numbers(room * HMCS_NUMBERS_PER_KINDS_ROW);
        result.steps.reserve(room); // nothing allocates after the call, so no result is lost
        result.run.trace.resize(room);
        const hmcs_kinds_reply reply =
            hmcs_run_kinds(tree_, state_, schedule, length, result.run.trace.data(), result.run.trace.size(), numbers.data(), numbers.size());
        detail::keep(reply, state_, result.run);
        under_way_known_ = under_way_known_ && result.run.counts.steps == 0;
        for (std::size_t row = 0; row < reply.rows; ++row) {
            const std::uint16_t *n = numbers.data() + row * HMCS_NUMBERS_PER_KINDS_ROW;
            result.steps.push_back(StepKind{static_cast<Kind>(n[0]), n[1]});
        }
        return result;
    }

    KindsResult run_kinds(const std::vector<std::uint16_t> &schedule) { return run_kinds(schedule.data(), schedule.size()); }
#if __cplusplus >= 202002L
    KindsResult run_kinds(std::span<const std::uint16_t> schedule) { return run_kinds(schedule.data(), schedule.size()); }
#endif

    // Runs a schedule, and returns the waits of the attempts that finish within it. The lock keeps the attempts under way, so waits continue
    // from one such run to the next. After a step or a run without waits they are unknown, and attempts that began before it are not counted. If
    // refused, the state is unchanged and no step is taken.
    WaitsResult run_waits(const std::uint16_t *schedule, std::size_t length) {
        if (!under_way_known_) {
            under_way_.fill(0);
            under_way_known_ = true;
        }
        waits_.resize(threads()); // before the call, so nothing allocates after it
        WaitsResult result = hmcs::run_waits(Tree::of(tree_), state_, under_way_, schedule, length);
        if (result.accepted()) {
            std::transform(result.threads.begin(), result.threads.end(), waits_.begin(), waits_.begin(), joined);
            all_waits_ = joined(result.all, all_waits_);
        }
        return result;
    }

    WaitsResult run_waits(const std::vector<std::uint16_t> &schedule) { return run_waits(schedule.data(), schedule.size()); }
#if __cplusplus >= 202002L
    WaitsResult run_waits(std::span<const std::uint16_t> schedule) { return run_waits(schedule.data(), schedule.size()); }
#endif

    // The waits of all runs with waits so far, and the attempts under way.
    WaitsSoFar waits() const {
        WaitsSoFar result{waits_, all_waits_, {}};
        result.threads.resize(threads());
        result.under_way.assign(under_way_.begin(), under_way_.begin() + static_cast<std::ptrdiff_t>(threads()));
        if (!under_way_known_) {
            std::fill(result.under_way.begin(), result.under_way.end(), 0);
        }
        return result;
    }

    // The chain of threads that a thread waits for. A number above 65,535 is refused like 65,535. A state that was reached by steps and runs
    // has a chain for each of its threads.
    ChainResult chain(std::uint32_t thread) const {
        ChainResult result;
        result.threads.resize(HMCS_THREADS);
        std::uint32_t place = 0;
        std::uint32_t length = 0;
        const std::uint16_t number = detail::thread_of(thread);
        result.refusal.number = hmcs_chain(tree_, state_, number, result.threads.data(), result.threads.size(), &place, &length);
        result.refusal.place = place;
        result.threads.resize(length);
        return result;
    }

    // The counters of a domain. All three are 0 for the root, and for a number that is not a domain of the tree.
    Tenures tenures(std::uint32_t domain) const noexcept {
        if (domain == 0 || domain >= tree_.domains || domain >= HMCS_DOMAINS) {
            return Tenures{};
        }
        return Tenures{state_.entries[domain], state_.tenures[domain], state_.longest[domain]};
    }

    // The thread that is Inside, if there is one.
    std::optional<std::uint16_t> holder() const noexcept {
        for (std::size_t i = 0; i < HMCS_THREADS; ++i) {
            if (state_.places.rows[i] == HMCS_ROW_INSIDE) {
                return static_cast<std::uint16_t>(i);
            }
        }
        return std::nullopt;
    }

  private:
    std::size_t threads() const noexcept { return std::min<std::size_t>(tree_.threads, HMCS_THREADS); }

    static Refusal of(hmcs_answer a) noexcept { return Refusal{a.number, a.place}; }

    hmcs_tree tree_;
    hmcs_state state_;
    Refusal refusal_;
    UnderWay under_way_{};
    bool under_way_known_ = true; // whether these are the attempts under way in this state
    std::vector<Waits> waits_;    // of all runs with waits so far, one for each thread
    Waits all_waits_;
};

// The allowances of a tree's domains; if refused, none.
struct [[nodiscard]] AllowancesResult : Result {
    std::vector<std::uint64_t> domains; // one for each; 0 for the root, and UINT64_MAX if it is larger
};

// How many entries the threads under a domain may make while another member of its parent is waiting for its grant.
inline AllowancesResult allowances(const Tree &tree) {
    AllowancesResult result;
    result.domains.resize(HMCS_DOMAINS);
    const hmcs_answer answer = hmcs_allowances(tree.words(), result.domains.data());
    result.refusal = Refusal{answer.number, answer.place};
    result.domains.resize(result.accepted() ? tree.words().domains : 0);
    return result;
}

// The longest waits of a tree's threads; if refused, none.
struct [[nodiscard]] WaitBoundsResult : Result {
    std::vector<std::uint64_t> threads; // one for each, in entries of others; UINT64_MAX if it is larger

    std::uint64_t largest() const { return threads.empty() ? 0 : *std::max_element(threads.begin(), threads.end()); }
};

// The largest number of entries of others that each thread waits for in one attempt, as long as nobody stalls.
inline WaitBoundsResult wait_bounds(const Tree &tree) {
    WaitBoundsResult result;
    result.threads.resize(HMCS_THREADS);
    const hmcs_answer answer = hmcs_wait_bounds(tree.words(), result.threads.data());
    result.refusal = Refusal{answer.number, answer.place};
    result.threads.resize(result.accepted() ? tree.words().threads : 0);
    return result;
}

// The number of rounds within which every thread enters, and how many turns these are with round robin; 0 if refused, UINT64_MAX if it is larger.
struct [[nodiscard]] RoundsResult : Result {
    std::uint64_t rounds = 0;
    std::uint64_t turns = 0;
};

// A round is a stretch of a schedule in which every thread takes one or more turns.
inline RoundsResult rounds(const Tree &tree) {
    const hmcs_rounds_reply reply = hmcs_rounds(tree.words());
    RoundsResult result;
    result.refusal = Refusal{reply.number, reply.place};
    result.rounds = reply.rounds;
    result.turns = reply.turns;
    return result;
}

// The row of one of many schedules; if refused (11, 12), the counts are 0.
struct [[nodiscard]] Row : Result {
    Counts counts;
};

// The result of the whole call; if the tree is refused, there are no rows.
struct [[nodiscard]] ManyResult : Result {
    std::vector<Row> rows; // one for each schedule, in order
};

// Many schedules on one tree, each from its own fresh lock. Traces are not kept.
inline ManyResult run_many(const Tree &tree, const std::uint32_t *lengths, std::size_t schedules, const std::uint16_t *entries, std::size_t entries_length) {
    std::vector<std::uint32_t> numbers(schedules * HMCS_NUMBERS_PER_MANY_ROW);
    const hmcs_many_reply reply = hmcs_run_many(tree.words(), lengths, schedules, entries, entries_length, numbers.data(), numbers.size());
    ManyResult result;
    result.refusal = Refusal{reply.number, reply.place};
    for (std::size_t row = 0; row < reply.rows; ++row) {
        const std::uint32_t *n = numbers.data() + row * HMCS_NUMBERS_PER_MANY_ROW;
        result.rows.push_back(Row{{Refusal{n[0], n[1]}}, Counts{n[2], n[3], n[4], n[5], n[6], n[7]}});
    }
    return result;
}

inline ManyResult run_many(const Tree &tree, const std::vector<std::vector<std::uint16_t>> &schedules) {
    constexpr std::size_t longest = 65537; // a longer schedule is refused (11) like one of this length
    std::vector<std::uint32_t> lengths;
    std::vector<std::uint16_t> entries;
    for (const std::vector<std::uint16_t> &schedule : schedules) {
        const std::size_t length = std::min(schedule.size(), longest);
        lengths.push_back(static_cast<std::uint32_t>(length));
        entries.insert(entries.end(), schedule.begin(), schedule.begin() + static_cast<std::ptrdiff_t>(length));
    }
    return run_many(tree, lengths.data(), lengths.size(), entries.data(), entries.size());
}

// Checks a journal against steps from a fresh lock. The place is a position in it, or for 4 to 9 and 16 one in the tree.
inline Refusal check_journal(const Tree &tree, const std::uint8_t *journal, std::size_t length) {
    const hmcs_journal_answer answer = hmcs_check_journal(tree.words(), journal, length);
    return Refusal{answer.number, answer.place};
}

inline Refusal check_journal(const Tree &tree, const std::vector<std::uint8_t> &journal) { return check_journal(tree, journal.data(), journal.size()); }

// What the check of steps found.
struct [[nodiscard]] StepsResult : Result {
    std::size_t checked = 0; // right steps: all of them if accepted, else those before the place; 0 if refused by 4 to 10, 16 or 30
};

// Checks recorded steps (thread, kind and domain) from a state owned by the host. The state becomes the one before the first wrong step, or the one after
// the last, so a trace may be checked in pieces. If refused by 4 to 10, 16 or 30, the state is unchanged.
inline StepsResult check_steps(const Tree &tree, hmcs_state &state, const std::vector<std::uint16_t> &threads, const std::vector<std::uint16_t> &kinds,
                               const std::vector<std::uint16_t> &domains) noexcept {
    const hmcs_steps_reply reply =
        hmcs_check_steps(tree.words(), state, threads.data(), threads.size(), kinds.data(), kinds.size(), domains.data(), domains.size());
    state = reply.state;
    StepsResult result;
    result.refusal = Refusal{reply.number, reply.place};
    result.checked = reply.checked;
    return result;
}

// Writes a journal, one journal entry for each step, without the fields that can be left out. A debug build adds each step that it takes from a
// fresh lock. A writer does not lock: each thread adds its entry under the mutex under which it took the step, since entries must be in
// the order of the steps. hmcs_trace.hpp does that, or finds the order afterwards.
class JournalWriter {
  public:
    // Adds a journal entry, or nothing if memory runs out. The check refuses a thread above 65,535 like 65,535.
    void add(std::uint32_t thread, Kind kind) {
        const std::uint16_t number = detail::thread_of(thread);
        const bool other_thread = number != thread_;
        const bool moved = kind != Kind::stay;
        std::uint8_t entry[4] = {static_cast<std::uint8_t>((other_thread ? HMCS_JOURNAL_THREAD : 0) | (moved ? HMCS_JOURNAL_KIND : 0))};
        std::size_t length = 1;
        if (other_thread) {
            entry[length++] = static_cast<std::uint8_t>(number & 255);
            entry[length++] = static_cast<std::uint8_t>(number >> 8);
        }
        if (moved) {
            entry[length++] = static_cast<std::uint8_t>(kind);
        }
        bytes_.insert(bytes_.end(), entry, entry + length);
        thread_ = number;
    }

    // What was added since the start, or since the last drain.
    const std::vector<std::uint8_t> &bytes() const noexcept { return bytes_; }

    // Takes these bytes out, for a file or a socket; the journal continues. All drained bytes, in order, are the journal.
    std::vector<std::uint8_t> drain() {
        std::vector<std::uint8_t> taken;
        taken.swap(bytes_);
        return taken;
    }

    // Starts another journal, from a fresh lock.
    void clear() noexcept {
        bytes_.clear();
        thread_ = 0;
    }

  private:
    std::vector<std::uint8_t> bytes_;
    std::uint16_t thread_ = 0; // of the previous journal entry
};

struct [[nodiscard]] FileResult : Result {
    std::string listing;
};

// The file call, with a buffer that is long enough for every listing.
inline FileResult run_file(const std::uint8_t *file, std::size_t length) {
    detail::check_library();
    FileResult result;
    result.listing.resize(HMCS_LISTING_ROOM);
    std::uint32_t place = 0;
    std::uint32_t written = 0;
    const std::uint32_t number = hmcs_run_file(file, length, reinterpret_cast<std::uint8_t *>(result.listing.data()), result.listing.size(), &place, &written);
    result.refusal = Refusal{number, place};
    result.listing.resize(written);
    return result;
}

inline FileResult run_file(const std::vector<std::uint8_t> &file) { return run_file(file.data(), file.size()); }

// The contents of a lock file; if refused (1 to 3), a tree without domains and threads, and no schedule.
struct [[nodiscard]] ReadResult : Result {
    Tree tree;
    std::vector<std::uint16_t> schedule;
};

// Reads a lock file without running it. A lock of its tree and a run of its schedule may still be refused.
inline ReadResult read_file(const std::uint8_t *file, std::size_t length) {
    ReadResult result;
    result.schedule.resize(HMCS_SCHEDULE_ROOM);
    const hmcs_read_reply reply = hmcs_read_file(file, length, result.schedule.data(), result.schedule.size());
    result.refusal = Refusal{reply.number, reply.place};
    result.tree = Tree::of(reply.tree);
    result.schedule.resize(reply.length);
    return result;
}

inline ReadResult read_file(const std::vector<std::uint8_t> &file) { return read_file(file.data(), file.size()); }

struct [[nodiscard]] WriteResult : Result {
    std::vector<std::uint8_t> file; // empty if refused
};

// The shortest lock file of a tree and a schedule.
inline WriteResult write_file(const Tree &tree, const std::uint16_t *schedule, std::size_t length) {
    WriteResult result;
    result.file.resize(65536); // a longer file is refused (1)
    std::uint32_t place = 0;
    std::uint32_t written = 0;
    const std::uint32_t number = hmcs_write_file(tree.words(), schedule, length, result.file.data(), result.file.size(), &place, &written);
    result.refusal = Refusal{number, place};
    result.file.resize(written);
    return result;
}

inline WriteResult write_file(const Tree &tree, const std::vector<std::uint16_t> &schedule) { return write_file(tree, schedule.data(), schedule.size()); }

// How long it takes to pass the lock on: p1 within a home, p2 between homes below one domain, p3 across the root; all in the same unit.
using PassingTimes = hmcs_passing_times;

struct [[nodiscard]] RateResult : Result {
    double rate = 0; // entries per unit of the times; 0 if refused
};

// The rate of a busy three-level lock whose threads' homes have threshold h1 and the domains between them and the root h2. A threshold above 65,535
// is refused like 0 (8).
inline RateResult rate(std::uint32_t h1, std::uint32_t h2, const PassingTimes &times) {
    detail::check_library();
    const hmcs_rate_reply reply = hmcs_rate(detail::threshold_of(h1), detail::threshold_of(h2), times);
    return RateResult{{Refusal{reply.number, reply.place}}, reply.rate};
}

// A tree from its text. For 15 the place is a position in the text.
struct [[nodiscard]] TextResult : Result {
    Tree tree;           // if refused, a tree without domains and threads
    std::string message; // if refused: what is wrong and, for 15, the text with a mark below the byte
};

namespace detail {

// Some bytes of a text on a line, with a dot for each unprintable one, and a mark below the place.
inline std::string marked(std::string_view text, std::size_t place) {
    constexpr std::size_t around = 30;
    const std::size_t from = place > around ? place - around : 0;
    const std::size_t shown = std::min(text.size() - from, 2 * around);
    std::string line = from > 0 ? "..." : "";
    const std::size_t mark = line.size() + (place - from);
    for (const char byte : text.substr(from, shown)) {
        line += byte >= ' ' && byte <= '~' ? byte : '.';
    }
    if (from + shown < text.size()) {
        line += "...";
    }
    return line + "\n" + std::string(mark, ' ') + "^\n";
}

// What could have followed in a text at the place where it was refused; up to there it is the beginning of a tree.
inline std::string expected(std::string_view text, std::size_t place) {
    const std::string_view read = text.substr(0, place);
    const auto level = std::count(read.begin(), read.end(), '(') - std::count(read.begin(), read.end(), ')');
    switch (read.empty() ? '\0' : read.back()) {
    case '\0': return "expected (";
    case '(':
        return level == 6 ? "expected # and a thread count: level 6 may only have threads" : "expected # and a thread count, or a threshold from 1 to 65,535";
    case '#': return "expected a thread count, from 1";
    case ' ': return "expected a threshold from 1 to 65,535 after one space";
    case ')': return level == 0 ? "expected the end of the text" : "expected ), or one space and another domain";
    default: break;
    }
    if (read[read.find_last_not_of("0123456789")] == '#') {
        return "expected another digit or )";
    }
    return place < text.size() && text[place] >= '0' && text[place] <= '9' ? "a threshold is at most 65,535" : "expected ( after the threshold";
}

inline std::string text_message(const Refusal &refusal, std::string_view text) {
    std::string message = hmcs_refusal_text(refusal.number);
    if (refusal.number != HMCS_TEXT_WRONG) {
        return message + "\n";
    }
    message += refusal.place < text.size() ? ", at byte " : ": it ends too soon, at byte ";
    return message + std::to_string(refusal.place) + ": " + expected(text, refusal.place) + "\n" + marked(text, refusal.place);
}

} // namespace detail

// A tree from its text, such as `(2(#2) 16(#1))`; its root is a queue. A line feed after it belongs to the file, not to the text.
inline TextResult read_tree(std::string_view text) {
    detail::check_library();
    const hmcs_text_reply reply = hmcs_read_text(reinterpret_cast<const std::uint8_t *>(text.data()), text.size());
    TextResult result;
    result.refusal = Refusal{reply.number, reply.place};
    result.tree = Tree::of(reply.tree);
    if (result.refused()) {
        result.message = detail::text_message(result.refusal, text);
    }
    return result;
}

#if __cplusplus >= 202002L
// The same for spans.
inline Refusal check_journal(const Tree &tree, std::span<const std::uint8_t> journal) { return check_journal(tree, journal.data(), journal.size()); }
inline FileResult run_file(std::span<const std::uint8_t> file) { return run_file(file.data(), file.size()); }
inline ReadResult read_file(std::span<const std::uint8_t> file) { return read_file(file.data(), file.size()); }
inline WriteResult write_file(const Tree &tree, std::span<const std::uint16_t> schedule) { return write_file(tree, schedule.data(), schedule.size()); }
#endif

} // namespace hmcs

#endif
