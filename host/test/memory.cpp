// The wrapper when memory runs out: each of its functions is called repeatedly, with the first, second, third .. allocation failing, until none
// fails. A call that throws has changed nothing, and numbers that do not fit are refused, not truncated.
#include "check.hpp"
#include "hmcs.hpp"
#include "trees.hpp"

#include <cstdio>
#include <cstdlib>
#include <functional>
#include <new>

namespace {

long until_failure = -1; // allocations that still succeed; none fails below 0

} // namespace

void *operator new(std::size_t size) {
    if (until_failure == 0) {
        throw std::bad_alloc();
    }
    until_failure -= until_failure > 0 ? 1 : 0;
    if (void *memory = std::malloc(size == 0 ? 1 : size)) {
        return memory;
    }
    throw std::bad_alloc();
}

void operator delete(void *memory) noexcept { std::free(memory); }
void operator delete(void *memory, std::size_t) noexcept { std::free(memory); }

namespace {

// Calls it with one more successful allocation each time; if it throws, checks what must still hold. Returns how often it threw.
int fails(const std::function<void()> &call, const std::function<bool()> &unchanged) {
    for (int allowed = 0;; ++allowed) {
        until_failure = allowed;
        try {
            call();
            until_failure = -1;
            return allowed;
        } catch (const std::bad_alloc &) {
            until_failure = -1;
            CHECK(unchanged());
        }
    }
}

bool same_waits(const hmcs::WaitsSoFar &a, const hmcs::WaitsSoFar &b) {
    return a.all.attempts == b.all.attempts && a.all.total == b.all.total && a.under_way == b.under_way && a.threads.size() == b.threads.size();
}

// A run that throws has taken no step, and the waits continue as if it had not been called.
void locks() {
    hmcs::Lock lock(example_tree());
    CHECK(lock.run_waits({0, 0, 0, 0, 1, 1, 1}).accepted());
    const hmcs_state before = lock.state();
    const hmcs::WaitsSoFar so_far = lock.waits();
    const auto unchanged = [&] { return hmcs::same(lock.state(), before) && same_waits(lock.waits(), so_far); };
    const auto nothing = [] { return true; };
    CHECK(fails(
              [&] {
                  hmcs::Lock copy = lock;
                  CHECK(copy.run(schedule22).accepted());
              },
              unchanged) > 0);
    CHECK(fails([&] { CHECK(lock.chain(1).accepted()); }, unchanged) > 0);
    CHECK(fails([&] { (void)lock.waits(); }, unchanged) > 0);
    CHECK(fails([&] { CHECK(lock.run_waits(schedule22).accepted()); }, unchanged) > 0);
    CHECK(!hmcs::same(lock.state(), before) && lock.waits().all.attempts > so_far.all.attempts);
    CHECK(fails([&] { CHECK(lock.run(schedule22).accepted()); }, nothing) > 0);
    CHECK(fails(
              [&] {
                  (void)lock.step(0);
                  (void)lock.holder();
                  (void)lock.tenures(1);
              },
              nothing) == 0);
    hmcs_state state{};
    hmcs::UnderWay under_way{};
    const auto fresh = [&] { return hmcs::same(state, hmcs_state{}) && under_way == hmcs::UnderWay{}; };
    CHECK(fails([&] { CHECK(hmcs::run_waits(example_tree(), state, under_way, schedule22).accepted()); }, fresh) > 0);
}

// A journal has only complete entries.
void journals() {
    hmcs::JournalWriter writer;
    std::size_t length = 0;
    const auto unchanged = [&] { return writer.bytes().size() == length; };
    for (int entry = 0; entry < 200; ++entry) {
        fails([&] { writer.add(static_cast<std::uint32_t>(entry % 2), hmcs::Kind::other_move); }, unchanged);
        length = writer.bytes().size();
    }
    CHECK(length == 2 + 199 * 4);
}

void others() {
    const auto nothing = [] { return true; };
    const hmcs::Tree tree = example_tree();
    CHECK(fails([&] { CHECK(hmcs::allowances(tree).accepted()); }, nothing) > 0);
    CHECK(fails([&] { CHECK(hmcs::wait_bounds(tree).accepted()); }, nothing) > 0);
    CHECK(fails([&] { CHECK(hmcs::rounds(tree).accepted()); }, nothing) == 0);
    CHECK(fails([&] { CHECK(hmcs::run_many(tree, {schedule22, {}}).accepted()); }, nothing) > 0);
    std::vector<std::uint8_t> file;
    CHECK(fails([&] { file = hmcs::write_file(tree, schedule22).file; }, nothing) > 0);
    CHECK(fails([&] { CHECK(hmcs::read_file(file).accepted()); }, nothing) > 0);
    CHECK(fails([&] { CHECK(hmcs::run_file(file).accepted()); }, nothing) > 0);
    CHECK(fails([&] { CHECK(hmcs::read_tree("(2(#2)  1(#1))").refused()); }, nothing) > 0);
    CHECK(fails([&] { CHECK(hmcs::check_journal(tree, {}).accepted()); }, nothing) == 0);
}

// A number that does not fit its word is refused, never truncated to one that is accepted.
void numbers() {
    hmcs::Tree tree;
    tree.add_domain(0, 65537);
    tree.add_thread(1);
    const hmcs::Lock lock(tree);
    CHECK(lock.refusal().number == HMCS_NO_THRESHOLD && lock.refusal().place == 1);
    CHECK(hmcs::rate(65537, 4, {1, 1, 1}).refusal.number == HMCS_NO_THRESHOLD && hmcs::rate(65537, 4, {1, 1, 1}).refusal.place == 1);
    CHECK(hmcs::rate(4, 65537, {1, 1, 1}).refusal.place == 2);
    hmcs::JournalWriter writer;
    writer.add(65536, hmcs::Kind::other_move);
    CHECK(hmcs::check_journal(example_tree(), writer.bytes()).number == HMCS_BAD_ENTRY);
    CHECK(hmcs::Lock(example_tree()).step(65536).refusal.number == HMCS_BAD_ENTRY);
}

} // namespace

int main() {
    locks();
    journals();
    others();
    numbers();
    std::printf("memory: %d checks, %d failures\n", checks, failures);
    return failures == 0 ? 0 : 1;
}
