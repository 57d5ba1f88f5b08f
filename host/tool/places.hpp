// Places of the step table in words, and what a thread at one does.
#ifndef HMCS_PLACES_HPP
#define HMCS_PLACES_HPP

#include "hmcs.hpp"

namespace tool {

// What a thread does, as a timeline colours it.
enum Doing { idle, rising, waiting, inside, releasing, doings };

Doing doing_at(std::uint8_t row);
const char *doing_text(Doing doing);
// Where a thread is: "is idle", "is in Help of domain 2".
std::string standing(const hmcs_state &state, std::uint32_t thread);

} // namespace tool

#endif
