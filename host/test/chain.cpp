// Why a thread waits, as a host uses it: chains at both kinds of root, each refusal in order, and that nothing outside the buffers is touched.
#include "check.hpp"
#include "guarded.hpp"
#include "hmcs.hpp"
#include "trees.hpp"

#include <cstdio>
#include <cstring>
#include <string>
#include <vector>

using hmcs::same;

namespace {

using Threads = std::vector<std::uint16_t>;
using hmcs::RootKind;

// The answer of a call.
struct Answer {
    std::uint32_t number, place;
    Threads chain;
};

// The call between guard pages, with the buffer at either end: whether everything after the chain, or the whole buffer of a refused call, is unchanged.
Answer ask(const hmcs_tree &tree, const hmcs_state &state, std::uint16_t thread, std::size_t room) {
    Answer answer{};
    for (bool at_end : {false, true}) {
        Guarded chain(room * 2, at_end), place(4, at_end), length(4, at_end);
        std::memset(chain.as<void>(), 0x33, room * 2);
        std::memset(place.as<void>(), 0x5a, 4);
        std::memset(length.as<void>(), 0xa5, 4);
        answer.number = hmcs_chain(tree, state, thread, chain.as<std::uint16_t>(), room, place.as<std::uint32_t>(), length.as<std::uint32_t>());
        answer.place = *place.as<std::uint32_t>();
        const std::uint32_t count = *length.as<std::uint32_t>();
        CHECK(answer.number == 0 ? count >= 1 && count <= tree.threads : count == 0);
        answer.chain.assign(chain.as<std::uint16_t>(), chain.as<std::uint16_t>() + count);
        for (std::size_t k = count; k < room; ++k) {
            CHECK(chain.as<std::uint16_t>()[k] == 0x3333);
        }
    }
    return answer;
}

// Accepted with this chain, with a buffer of exactly the needed length and with a longer one.
bool gives(const hmcs::Tree &tree, const hmcs_state &state, std::uint16_t thread, const Threads &chain) {
    bool same_chain = true;
    for (const std::size_t more : {0, 1, 300}) {
        const Answer answer = ask(tree.words(), state, thread, tree.words().threads + more);
        same_chain = same_chain && answer.number == 0 && answer.place == 0 && answer.chain == chain;
    }
    return same_chain;
}

bool refuses(const hmcs_tree &tree, const hmcs_state &state, std::uint16_t thread, std::size_t room, std::uint32_t number, std::uint32_t place = 0) {
    const Answer answer = ask(tree, state, thread, room);
    return answer.number == number && answer.place == place;
}

// No chain, with a buffer that is long enough.
bool breaks(const hmcs::Tree &tree, const hmcs_state &state, std::uint16_t thread) {
    return refuses(tree.words(), state, thread, tree.words().threads, HMCS_NO_CHAIN);
}

hmcs::Lock after(const hmcs::Tree &tree, const Threads &schedule, std::uint16_t start = 0) {
    hmcs::Lock lock(tree, start);
    CHECK(lock.run(schedule).accepted());
    return lock;
}

// A lock's chain through the wrapper and through the call.
bool explains(const hmcs::Lock &lock, std::uint16_t thread, const Threads &chain) {
    const hmcs::ChainResult result = lock.chain(thread);
    return result.accepted() && result.threads == chain && gives(hmcs::Tree::of(lock.tree()), lock.state(), thread, chain);
}

void queue_root() {
    const hmcs::Tree two = root_alone(RootKind::queue, 2);
    CHECK(explains(hmcs::Lock(two), 0, {0}) && explains(hmcs::Lock(two), 1, {1}));
    const hmcs::Lock waits = after(two, {0, 0, 1, 1, 1});
    CHECK(explains(waits, 1, {1, 0}) && explains(waits, 0, {0}));
    const hmcs::Lock lingers = after(two, {0, 0, 1, 1, 0, 0, 0});
    CHECK(lingers.state().places.rows[0] == HMCS_ROW_LINGER && explains(lingers, 0, {0, 1}) && explains(lingers, 1, {1}));
    CHECK(explains(after(root_alone(RootKind::queue, 3), {0, 0, 1, 1, 1, 2, 2, 2}), 2, {2, 1, 0}));
    hmcs::Lock across = after(two_domains(RootKind::queue), {2, 2, 2, 2, 0, 0, 0, 0, 0, 1, 1, 1});
    CHECK(explains(across, 1, {1, 0, 2}) && across.holder() == std::optional<std::uint16_t>(2));
    CHECK(across.step(2).accepted()); // in Check, lower than the root
    CHECK(across.state().places.rows[2] == HMCS_ROW_CHECK && explains(across, 1, {1, 0, 2}));
}

void ticket_root() {
    const hmcs::Tree three = root_alone(RootKind::ticket, 3);
    for (const std::uint16_t start : {0, 7, 65533, 65534, 65535}) {
        hmcs::Lock lock = after(three, {0, 1, 2}, start);
        CHECK(explains(lock, 2, {2, 1, 0}) && explains(lock, 1, {1, 0}) && explains(lock, 0, {0}));
        CHECK(lock.step(0).accepted());
        CHECK(lock.state().places.rows[0] == HMCS_ROW_RAISE && explains(lock, 2, {2, 1, 0}));
        CHECK(lock.step(0).accepted());
        CHECK(explains(lock, 2, {2, 1}) && explains(lock, 1, {1}) && explains(lock, 0, {0}));
    }
    CHECK(explains(after(two_domains(RootKind::ticket), {2, 2, 2, 0, 0, 0, 1, 1, 1}, 65535), 1, {1, 0, 2}));
}

// The largest number of threads, one after another: the longest chain.
void longest() {
    for (const RootKind root : {RootKind::queue, RootKind::ticket}) {
        const hmcs::Tree tree = root_alone(root, 256);
        hmcs::Lock lock(tree);
        Threads chain;
        for (std::uint16_t i = 0; i < 256; ++i) {
            CHECK(lock.run({i, i, i}).accepted());
            if (i == 0) {
                CHECK(lock.run(root == RootKind::queue ? Threads{0, 0, 0, 0} : Threads{0}).accepted()); // Inside again
            }
            chain.insert(chain.begin(), i);
        }
        CHECK(lock.holder() == std::optional<std::uint16_t>(0) && explains(lock, 255, chain));
    }
}

// Thread 2 in Wait at the root, of three.
hmcs_state third_waits() {
    hmcs_state state{};
    state.places.rows[2] = HMCS_ROW_WAIT;
    state.statuses[2] = HMCS_STATUS_LOCKED;
    return state;
}

// Thread 2 watches with ticket 6, while the grant is 4.
hmcs_state third_watches() {
    hmcs_state state{};
    state.places.rows[2] = HMCS_ROW_WATCH;
    state.statuses[2] = 6;
    state.ticket = 7;
    state.grant = 4;
    return state;
}

// 21: no thread to wait for.
void nobody() {
    const hmcs::Tree three = root_alone(RootKind::queue, 3);
    CHECK(breaks(three, third_waits(), 2));
    hmcs_state swaps = third_waits();
    swaps.nexts[0] = 3;
    swaps.places.rows[0] = HMCS_ROW_SWAP;
    CHECK(breaks(three, swaps, 2));
    swaps.places.rows[0] = HMCS_ROW_IDLE;
    CHECK(breaks(three, swaps, 2));
    swaps.places.rows[0] = HMCS_ROW_CAS;
    CHECK(gives(three, swaps, 2, {2, 0}));
    hmcs_state lingers{};
    lingers.places.rows[0] = HMCS_ROW_LINGER;
    lingers.tails[0] = 2;
    lingers.places.rows[1] = HMCS_ROW_LINK;
    lingers.places.peers[1] = 2;
    CHECK(breaks(three, lingers, 0));
    lingers.places.peers[1] = 0;
    CHECK(gives(three, lingers, 0, {0, 1}));
    hmcs_state watches = third_watches();
    watches.places.rows[0] = HMCS_ROW_INSIDE;
    watches.statuses[0] = 4;
    CHECK(breaks(root_alone(RootKind::ticket, 3), watches, 2));
    watches.statuses[0] = 5;
    CHECK(gives(root_alone(RootKind::ticket, 3), watches, 2, {2, 0}));
    watches.statuses[0] = 65541; // 5 in its last sixteen bits
    CHECK(breaks(root_alone(RootKind::ticket, 3), watches, 2));
}

// 21: several threads to wait for.
void several() {
    hmcs_state waits = third_waits();
    waits.nexts[0] = waits.nexts[1] = 3;
    waits.places.rows[0] = waits.places.rows[1] = HMCS_ROW_INSIDE;
    CHECK(breaks(root_alone(RootKind::queue, 3), waits, 2));
    waits.places.rows[0] = HMCS_ROW_IDLE;
    CHECK(gives(root_alone(RootKind::queue, 3), waits, 2, {2, 1}));
    hmcs_state lingers{};
    lingers.places.rows[0] = HMCS_ROW_LINGER;
    lingers.places.rows[1] = lingers.places.rows[2] = HMCS_ROW_LINK;
    CHECK(breaks(root_alone(RootKind::queue, 3), lingers, 0));
    hmcs_state watches = third_watches();
    watches.places.rows[0] = HMCS_ROW_INSIDE;
    watches.places.rows[1] = HMCS_ROW_RAISE;
    watches.statuses[0] = watches.statuses[1] = 5;
    CHECK(breaks(root_alone(RootKind::ticket, 3), watches, 2));
}

// 21: the chain comes back, to its first thread and to another.
void comes_back() {
    const hmcs::Tree three = root_alone(RootKind::queue, 3);
    hmcs_state waits = third_waits();
    waits.nexts[2] = 3;
    CHECK(breaks(three, waits, 2));
    waits.nexts[2] = 0;
    waits.nexts[1] = 3;
    waits.nexts[0] = 2;
    for (int i = 0; i < 2; ++i) {
        waits.places.rows[i] = HMCS_ROW_WAIT;
        waits.statuses[i] = HMCS_STATUS_LOCKED;
    }
    CHECK(breaks(three, waits, 2)); // 2, 1, 0 and then nobody
    waits.nexts[2] = 1;
    CHECK(breaks(three, waits, 2)); // 2, 1, 0, 2
    waits.nexts[2] = 0;
    waits.nexts[1] = 3;
    waits.nexts[0] = 1;
    CHECK(breaks(three, waits, 0));
    // thread 0 waits at home for thread 1, which waits at the root for thread 2, which waits there for thread 1
    hmcs_state across{};
    hmcs::set_place(across, 0, hmcs::Place{HMCS_ROW_WAIT, 1, 0, 0});
    across.places.rows[1] = across.places.rows[2] = HMCS_ROW_WAIT;
    across.statuses[0] = HMCS_STATUS_WAIT;
    across.statuses[257] = across.statuses[258] = HMCS_STATUS_LOCKED;
    across.nexts[1] = 1;
    across.nexts[257] = 259;
    across.nexts[258] = 258;
    CHECK(breaks(two_domains(RootKind::queue), across, 0) && breaks(two_domains(RootKind::queue), across, 2));
    across.statuses[258] = HMCS_STATUS_UNLOCKED;
    CHECK(gives(two_domains(RootKind::queue), across, 0, {0, 1, 2}));
}

// 4 to 9 and 16, by the tree; nothing is tested before them.
void trees() {
    const hmcs_tree good = two_domains(RootKind::queue).words();
    hmcs_state bad_state{};
    bad_state.places.rows[0] = HMCS_ROW_CHECK;
    for (const std::uint32_t kind : {0u, 1u}) {
        hmcs_tree tree = good;
        tree.ticket_root = kind;
        const auto refused = [&](const hmcs_tree &bad, std::uint32_t number, std::uint32_t place) { CHECK(refuses(bad, bad_state, 9, 0, number, place)); };
        hmcs_tree bad = tree;
        bad.domains = 65;
        refused(bad, HMCS_BAD_DOMAINS, 0);
        bad = tree;
        bad.threads = 257;
        refused(bad, HMCS_BAD_THREADS, 0);
        bad = tree;
        bad.parents[2] = 2;
        refused(bad, HMCS_BAD_PARENT, 2);
        bad = tree;
        bad.domains = 7;
        for (std::uint8_t d = 1; d < 7; ++d) {
            bad.parents[d] = static_cast<std::uint8_t>(d - 1);
        }
        refused(bad, HMCS_TOO_DEEP, 6);
        bad = tree;
        bad.thresholds[1] = 0;
        refused(bad, HMCS_NO_THRESHOLD, 1);
        bad = tree;
        bad.homes[1] = 0;
        refused(bad, HMCS_BAD_HOME, 1);
        bad = tree;
        bad.homes[2] = 1;
        refused(bad, HMCS_EMPTY_DOMAIN, 2);
        refused(tree, HMCS_BAD_STATE, 0);
    }
}

// 10, 12, 20 and 21, each before the next; the largest thread number; a null buffer.
void order() {
    for (const RootKind root : {RootKind::queue, RootKind::ticket}) {
        const hmcs_tree tree = root_alone(root, 3).words();
        const hmcs_state broken = root == RootKind::queue ? third_waits() : third_watches();
        hmcs_state bad = broken;
        bad.places.domains[2] = 1;
        CHECK(refuses(tree, bad, 3, 2, HMCS_BAD_STATE));
        CHECK(refuses(tree, broken, 3, 2, HMCS_BAD_ENTRY) && refuses(tree, broken, 65535, 2, HMCS_BAD_ENTRY));
        for (std::size_t room = 0; room < 3; ++room) {
            CHECK(refuses(tree, broken, 2, room, HMCS_CHAIN_SHORT) && refuses(tree, broken, 0, room, HMCS_CHAIN_SHORT));
        }
        CHECK(refuses(tree, broken, 2, 3, HMCS_NO_CHAIN) && refuses(tree, broken, 0, 3, HMCS_ACCEPTED));
        std::uint32_t place = 9, length = 9;
        CHECK(hmcs_chain(tree, broken, 0, nullptr, 0, &place, &length) == HMCS_CHAIN_SHORT && place == 0 && length == 0);
    }
}

// The wrapper refuses like the call, and the lock is unchanged.
void wrapper() {
    const hmcs::Lock lock = after(root_alone(RootKind::queue, 2), {0, 0, 1, 1, 1});
    const hmcs_state before = lock.state();
    for (const std::uint32_t thread : {2u, 255u, 65535u, 65536u, 4294967295u}) {
        const hmcs::ChainResult none = lock.chain(thread);
        CHECK(none.refusal.number == HMCS_BAD_ENTRY && none.refusal.place == 0 && none.threads.empty());
    }
    CHECK(lock.chain(1).threads == (Threads{1, 0}) && same(before, lock.state()));
    CHECK(hmcs::Lock(hmcs::Tree()).chain(0).refusal.number == HMCS_BAD_THREADS);
    CHECK(std::string(hmcs_refusal_text(HMCS_CHAIN_SHORT)) != hmcs_refusal_text(HMCS_NO_CHAIN));
    CHECK(std::string(hmcs_refusal_text(HMCS_NO_CHAIN)) != hmcs_refusal_text(1000));
}

} // namespace

int main() {
    queue_root();
    ticket_root();
    longest();
    nobody();
    several();
    comes_back();
    trees();
    order();
    wrapper();
    std::printf("chain: %d checks, %d failures\n", checks, failures);
    return failures == 0 ? 0 : 1;
}
