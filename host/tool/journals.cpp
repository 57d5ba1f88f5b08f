#include "journals.hpp"

namespace tool {

std::vector<std::uint16_t> Journal::threads() const {
    std::vector<std::uint16_t> threads;
    for (const JournalEntry &entry : entries) {
        threads.push_back(entry.thread);
    }
    return threads;
}

Journal journal_of(const std::string &bytes) {
    const auto byte = [&](std::size_t at) { return static_cast<std::uint8_t>(bytes[at]); };
    Journal journal;
    std::uint16_t thread = 0;
    while (journal.end < bytes.size()) {
        const std::size_t at = journal.end;
        const unsigned bits = byte(at);
        const bool names_thread = (bits & HMCS_JOURNAL_THREAD) != 0, names_kind = (bits & HMCS_JOURNAL_KIND) != 0;
        const std::size_t length = 1 + (names_thread ? 2 : 0) + (names_kind ? 1 : 0);
        if (bits > (HMCS_JOURNAL_THREAD | HMCS_JOURNAL_KIND) || at + length > bytes.size()) {
            journal.broken = true;
            return journal;
        }
        if (names_thread) {
            thread = static_cast<std::uint16_t>(byte(at + 1) + 256 * byte(at + 2));
        }
        const std::uint8_t kind = names_kind ? byte(at + length - 1) : static_cast<std::uint8_t>(HMCS_STAY);
        journal.entries.push_back({at, thread, kind});
        journal.end = at + length;
    }
    return journal;
}

} // namespace tool
