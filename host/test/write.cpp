// Writing the lock file, as a host uses it: the example byte by byte, written and run, refusals in order, and that nothing outside the buffer is touched.
#include "check.hpp"
#include "guarded.hpp"
#include "hmcs.hpp"
#include "trees.hpp"

#include <cstdio>
#include <cstring>
#include <string>
#include <vector>

namespace {

using Schedule = std::vector<std::uint16_t>;
using Bytes = std::vector<std::uint8_t>;

// The tree's bytes of the example with the given first byte, then two bytes per entry.
Bytes example_file(std::uint8_t first) {
    Bytes file = {first, 2, 2, 0, 0, 3, 0, 1, 1, 0, 1, 2};
    for (const std::uint16_t entry : schedule22) {
        file.push_back(static_cast<std::uint8_t>(entry));
        file.push_back(0);
    }
    return file;
}

// Written, and run as a file: the listing that the specification prints; with a ticket root 128 more in the first byte.
void example() {
    const hmcs::WriteResult written = hmcs::write_file(example_tree(), schedule22);
    CHECK(written.accepted() && written.file == example_file(3));
    CHECK(hmcs::run_file(written.file).listing == "ok 22 3 1 2 1 0\n0\n1\n2\n");
    CHECK(hmcs::write_file(two_domains(hmcs::RootKind::ticket), schedule22).file == example_file(131));
    hmcs_tree words = example_tree().words();
    words.ticket_root = 4096;
    words.parents[0] = words.homes[3] = 77;
    words.thresholds[3] = 7;
    CHECK(hmcs::write_file(hmcs::Tree::of(words), schedule22).file == example_file(131));
}

// Parents 0 and 1, thresholds 15, 16, 17 and 272, homes of the previous thread and others.
void edges() {
    hmcs::Tree tree;
    const std::uint16_t thresholds[5] = {15, 16, 16, 17, 272};
    const std::uint32_t parents[5] = {0, 0, 1, 1, 0};
    for (int k = 0; k < 5; ++k) {
        tree.add_domain(parents[k], thresholds[k]);
    }
    for (const std::uint32_t home : {2, 2, 3, 4, 5, 2}) {
        tree.add_thread(home);
    }
    CHECK((hmcs::write_file(tree, {}).file == Bytes{6, 2, 15, 0, 0, 1, 1, 3, 1, 17, 0, 2, 16, 1, 6, 0, 1, 2, 0, 1, 3, 1, 4, 1, 5, 1, 2}));
}

// One thread: 32,766 entries make the longest file; with one more there is none.
void longest() {
    const hmcs::Tree tree = root_alone(hmcs::RootKind::queue, 1);
    const hmcs::WriteResult full = hmcs::write_file(tree, Schedule(32766, 0));
    CHECK(full.accepted() && full.file.size() == 65536 && hmcs::run_file(full.file).accepted());
    const hmcs::WriteResult more = hmcs::write_file(tree, Schedule(32767, 0));
    CHECK(more.refusal.number == HMCS_FILE_TOO_LONG && more.refusal.place == 0 && more.file.empty());
    CHECK(hmcs::write_file(tree, Schedule(65537, 0)).refusal.number == HMCS_SCHEDULE_LONG);
}

// The example between guard pages, with each length around its 56 bytes, with a last entry that is no thread, and with a tree that is refused.
void buffers() {
    const Bytes wanted = example_file(3);
    for (bool at_end : {false, true}) {
        for (std::size_t room = 0; room <= 60; ++room) {
            for (const std::uint16_t last : {2, 3}) {
                for (const std::uint8_t home : {2, 1}) {
                    hmcs_tree words = example_tree().words();
                    words.homes[2] = home;
                    Guarded schedule(44, at_end), file(room, at_end);
                    std::memcpy(schedule.as<void>(), schedule22.data(), 44);
                    schedule.as<std::uint16_t>()[21] = last;
                    std::memset(file.as<void>(), 0x33, room);
                    std::uint32_t place = 99, length = 99;
                    const std::uint32_t number = hmcs_write_file(words, schedule.as<std::uint16_t>(), 22, file.as<std::uint8_t>(), room, &place, &length);
                    const std::uint32_t expected = home == 1 ? HMCS_EMPTY_DOMAIN : last == 3 ? HMCS_BAD_ENTRY : room < 56 ? HMCS_FILE_SHORT : HMCS_ACCEPTED;
                    CHECK(number == expected && place == (home == 1 ? 2u : last == 3 ? 21u : 0u) && length == (expected == 0 ? 56u : 0u));
                    for (std::size_t k = 0; k < room; ++k) {
                        CHECK(file.as<std::uint8_t>()[k] == (expected == 0 && k < 56 ? wanted[k] : 0x33));
                    }
                }
            }
        }
    }
}

// Null pointers with length 0, and sentences of refusals.
void nothing() {
    std::uint32_t place = 99, length = 99;
    CHECK(hmcs_write_file(example_tree().words(), nullptr, 0, nullptr, 0, &place, &length) == HMCS_FILE_SHORT && place == 0 && length == 0);
    CHECK(std::string(hmcs_refusal_text(HMCS_FILE_SHORT)) == "the file buffer is shorter than the lock file");
    CHECK(hmcs::write_file(hmcs::Tree(), {}).refusal.number == HMCS_BAD_THREADS);
}

} // namespace

int main() {
    example();
    edges();
    longest();
    buffers();
    nothing();
    std::printf("write: %d checks, %d failures\n", checks, failures);
    return failures == 0 ? 0 : 1;
}
