// What every thread did in a run, as lanes of a page.
#ifndef HMCS_TIMELINE_HPP
#define HMCS_TIMELINE_HPP

#include "places.hpp"

#include <string>

namespace tool {

struct Entry {
    std::size_t turn;
    std::uint16_t thread;
    hmcs::Kind kind;
};

// From this turn on, a thread does something else.
struct Change {
    std::size_t turn;
    Doing doing;
};

// A run, recorded step by step. Every thread is idle before it.
struct Recording {
    std::size_t turns = 0;
    std::vector<std::vector<Change>> threads;
    std::vector<Entry> entries;
};

Recording record(const hmcs::Tree &tree, const std::vector<std::uint16_t> &schedule);

// The lanes of some turns: three for the kinds of entry, then one for each thread, by home.
std::string lanes(const hmcs::Tree &tree, const Recording &recording, std::size_t from, std::size_t to);
// Whether there are more turns than columns, so several turns share one.
bool are_gathered(const hmcs::Tree &tree, std::size_t turns);

} // namespace tool

#endif
