// Schedules that waste no turn: each goes to a thread whose next step is not a stay.
#ifndef HMCS_BUSY_HPP
#define HMCS_BUSY_HPP

#include "hmcs.hpp"

#include <vector>

namespace tool {

// Draws each turn among the threads that can move, in the order of their numbers. A thread that becomes idle is not drawn for a pause of 0 to
// 2 * work turns, drawn when it becomes idle; if every thread pauses, time skips to the end of the shortest pause. The tree must be accepted.
std::vector<std::uint16_t> busy_turns(const hmcs::Tree &tree, std::uint64_t count, std::uint64_t seed, std::uint64_t work);

} // namespace tool

#endif
