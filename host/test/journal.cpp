// The check of a journal, as a host uses it: journals of real steps through the writer, each byte changed, refusals, and that nothing outside the bytes is read.
#include "check.hpp"
#include "guarded.hpp"
#include "hmcs.hpp"
#include "trees.hpp"

#include <cstdio>
#include <cstring>
#include <random>
#include <string>
#include <vector>

namespace {

using Bytes = std::vector<std::uint8_t>;

// The journal of random steps of a host's lock.
Bytes journal_of(const hmcs::Tree &tree, std::size_t steps, std::uint32_t seed) {
    std::mt19937 random(seed);
    hmcs::Lock lock(tree);
    hmcs::JournalWriter writer;
    for (std::size_t k = 0; k < steps; ++k) {
        const std::uint16_t thread = static_cast<std::uint16_t>(random() % tree.words().threads);
        const hmcs::StepResult step = lock.step(thread);
        CHECK(step.accepted());
        writer.add(thread, step.kind);
    }
    return writer.bytes();
}

// The expected answer, entry by entry, from steps of a lock in place.
hmcs::Refusal expected(const hmcs::Tree &tree, const Bytes &journal) {
    hmcs::Lock lock(tree);
    std::uint32_t thread = 0;
    for (std::size_t at = 0; at < journal.size();) {
        const std::size_t begin = at;
        const std::uint8_t map = journal[at++];
        const std::size_t fields = (map & 1 ? 2u : 0u) + (map & 2 ? 1u : 0u);
        if (map > 3 || journal.size() - at < fields) {
            return {HMCS_JOURNAL_BROKEN, begin};
        }
        if (map & 1) {
            thread = journal[at] + 256u * journal[at + 1];
            at += 2;
        }
        const std::uint32_t kind = map & 2 ? journal[at++] : 0;
        const hmcs::StepResult step = lock.step(thread);
        if (step.refused()) {
            return {step.refusal.number, begin};
        }
        if (static_cast<std::uint32_t>(step.kind) != kind) {
            return {HMCS_OTHER_KIND, begin};
        }
    }
    return {};
}

bool same(const hmcs::Refusal &a, const hmcs::Refusal &b) { return a.number == b.number && a.place == b.place; }

// 10,000 random steps are accepted; of 200, every byte with each bit changed, and every length.
void real_steps() {
    for (const hmcs::RootKind root : {hmcs::RootKind::queue, hmcs::RootKind::ticket}) {
        for (const hmcs::Tree &tree : {root_alone(root, 1), root_alone(root, 5), two_domains(root)}) {
            const Bytes journal = journal_of(tree, 10000, 1);
            CHECK(hmcs::check_journal(tree, journal).accepted());
            Bytes few = journal_of(tree, 200, 2);
            CHECK(hmcs::check_journal(tree, few).accepted());
            for (std::size_t at = 0; at < few.size(); ++at) {
                for (int bit = 0; bit < 8; ++bit) {
                    few[at] = static_cast<std::uint8_t>(few[at] ^ (1 << bit));
                    CHECK(same(hmcs::check_journal(tree, few), expected(tree, few)));
                    few[at] = static_cast<std::uint8_t>(few[at] ^ (1 << bit));
                }
                const Bytes cut(few.begin(), few.begin() + static_cast<std::ptrdiff_t>(at));
                CHECK(same(hmcs::check_journal(tree, cut), expected(tree, cut)));
            }
        }
    }
}

// About as many entries as the library reads at a time, and twice as many: the first wrong kind after them, a cut, a thread that is not in the tree.
void pieces() {
    const hmcs::Tree tree = example_tree();
    for (const std::size_t steps : {1023, 1024, 1025, 2047, 2048, 2049}) {
        const Bytes journal = journal_of(tree, steps, 3);
        CHECK(hmcs::check_journal(tree, journal).accepted());
        for (const Bytes &more : {Bytes{2, 9}, Bytes{1, 0}, Bytes{4}, Bytes{3, 3, 0, 1}, Bytes{3, 0, 1, 7}}) {
            Bytes longer = journal;
            longer.insert(longer.end(), more.begin(), more.end());
            const hmcs::Refusal refusal = hmcs::check_journal(tree, longer);
            CHECK(refusal.refused() && refusal.place == journal.size() && same(refusal, expected(tree, longer)));
        }
    }
}

// The writer leaves out the thread of the previous entry, 0 at first, and a stay.
void writer() {
    hmcs::JournalWriter writer;
    CHECK(writer.bytes().empty() && hmcs::check_journal(example_tree(), writer.bytes()).accepted());
    writer.add(0, hmcs::Kind::other_move);
    writer.add(258, hmcs::Kind::stay);
    writer.add(258, hmcs::Kind::stay);
    writer.add(0, hmcs::Kind::leaving);
    CHECK((writer.bytes() == Bytes{2, 1, 1, 2, 1, 0, 3, 0, 0, 5}));
}

// The bytes between guard pages, and null with length 0; the tree is tested first.
void buffers() {
    const hmcs::Tree tree = example_tree();
    const Bytes journal = journal_of(tree, 300, 4);
    for (bool at_end : {false, true}) {
        for (std::size_t length = 0; length <= journal.size(); ++length) {
            Guarded bytes(length, at_end);
            std::memcpy(bytes.as<void>(), journal.data(), length);
            const Bytes front(journal.begin(), journal.begin() + static_cast<std::ptrdiff_t>(length));
            CHECK(same(hmcs::check_journal(tree, bytes.as<std::uint8_t>(), length), expected(tree, front)));
        }
    }
    CHECK(hmcs::check_journal(tree, nullptr, 0).accepted());
    hmcs_tree bad = tree.words();
    bad.homes[2] = 1;
    const hmcs::Refusal refusal = hmcs::check_journal(hmcs::Tree::of(bad), Bytes{255});
    CHECK(refusal.number == HMCS_EMPTY_DOMAIN && refusal.place == 2);
    CHECK(std::string(hmcs_refusal_text(HMCS_JOURNAL_BROKEN)) != hmcs_refusal_text(HMCS_OTHER_KIND));
    CHECK(std::string(hmcs_refusal_text(HMCS_OTHER_KIND)) == "the kind that a journal entry names is not the step's");
}

} // namespace

int main() {
    real_steps();
    pieces();
    writer();
    buffers();
    std::printf("journal: %d checks, %d failures\n", checks, failures);
    return failures == 0 ? 0 : 1;
}
