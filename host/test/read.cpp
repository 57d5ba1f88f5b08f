// Reading a lock file without running it, as a host uses it: the example, buffers of other lengths, refusals, and that a written file reads back.
#include "check.hpp"
#include "guarded.hpp"
#include "hmcs.hpp"
#include "trees.hpp"

#include <cstdio>
#include <vector>

namespace {

using Bytes = std::vector<std::uint8_t>;

bool same_trees(const hmcs_tree &a, const hmcs_tree &b) {
    return a.domains == b.domains && a.threads == b.threads && a.ticket_root == b.ticket_root && std::equal(a.parents, a.parents + HMCS_DOMAINS, b.parents) &&
           std::equal(a.thresholds, a.thresholds + HMCS_DOMAINS, b.thresholds) && std::equal(a.homes, a.homes + HMCS_THREADS, b.homes);
}

// A written file reads back the same, with either kind of root; unused words are 0.
void written() {
    for (const hmcs::RootKind root : {hmcs::RootKind::queue, hmcs::RootKind::ticket}) {
        const hmcs::Tree tree = two_domains(root);
        const hmcs::ReadResult read = hmcs::read_file(hmcs::write_file(tree, schedule22).file);
        CHECK(read.accepted() && read.schedule == std::vector<std::uint16_t>(schedule22.begin(), schedule22.end()));
        CHECK(same_trees(read.tree.words(), tree.words()));
    }
}

// The longest schedule fits HMCS_SCHEDULE_ROOM.
void longest() {
    const hmcs::Tree tree = root_alone(hmcs::RootKind::queue, 1);
    const hmcs::ReadResult read = hmcs::read_file(hmcs::write_file(tree, std::vector<std::uint16_t>(32766, 0)).file);
    CHECK(read.accepted() && read.schedule.size() == 32766 && read.schedule.size() <= HMCS_SCHEDULE_ROOM);
}

// A buffer between guard pages that is long enough, one element too short or empty; what is after the schedule stays.
void buffers() {
    const Bytes file = hmcs::write_file(example_tree(), schedule22).file;
    const std::size_t turns = schedule22.size();
    for (const std::size_t room : {std::size_t(0), turns - 1, turns, turns + 1}) {
        for (const bool at_end : {false, true}) {
            Guarded memory(2 * room, at_end);
            std::uint16_t *schedule = memory.as<std::uint16_t>();
            std::fill(schedule, schedule + room, std::uint16_t(0x5A5A));
            const hmcs_read_reply reply = hmcs_read_file(file.data(), file.size(), schedule, room);
            CHECK(reply.number == HMCS_ACCEPTED && reply.length == turns);
            const std::size_t kept = room < turns ? 0 : turns;
            CHECK(std::equal(schedule, schedule + kept, schedule22.begin()));
            CHECK(std::all_of(schedule + kept, schedule + room, [](std::uint16_t word) { return word == 0x5A5A; }));
        }
    }
}

// Refused: number and place, no turns, a tree without domains and threads.
void refused() {
    const struct {
        Bytes file;
        std::uint32_t number;
        std::size_t place;
    } cases[] = {{Bytes(65537, 0), HMCS_FILE_TOO_LONG, 0}, {{}, HMCS_FILE_CUT, 0}, {{3, 2, 2, 0, 0, 3}, HMCS_FILE_CUT, 6}, {{2, 4}, HMCS_FILE_BIT, 1}};
    for (const auto &c : cases) {
        const hmcs::ReadResult read = hmcs::read_file(c.file);
        CHECK(read.refusal.number == c.number && read.refusal.place == c.place && read.schedule.empty());
        CHECK(same_trees(read.tree.words(), hmcs_tree{}));
    }
    const hmcs::ReadResult read = hmcs::read_file(Bytes{0, 0, 0}); // no domains: read, and refused by a fresh lock
    CHECK(read.accepted() && hmcs::Lock(read.tree).refusal().number == HMCS_BAD_DOMAINS);
}

} // namespace

int main() {
    written();
    longest();
    buffers();
    refused();
    std::printf("read: %d checks, %d failures\n", checks, failures);
    return failures == 0 ? 0 : 1;
}
