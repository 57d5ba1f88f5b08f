// A plugin's journal, read entry by entry. Whether it agrees with the lock's steps is the library's answer.
#ifndef HMCS_JOURNALS_HPP
#define HMCS_JOURNALS_HPP

#include "hmcs.hpp"

#include <string>
#include <vector>

namespace tool {

struct JournalEntry {
    std::size_t byte; // its first
    std::uint16_t thread;
    std::uint8_t kind;
};

// The entries up to the end, or up to the first that is cut off or has another bit set.
struct Journal {
    std::vector<JournalEntry> entries;
    std::size_t end = 0; // the byte after the last of them
    bool broken = false;

    std::vector<std::uint16_t> threads() const;
};

Journal journal_of(const std::string &bytes);

} // namespace tool

#endif
