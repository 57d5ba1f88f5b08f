#include "places.hpp"

namespace tool {

namespace {

// In the order of enum hmcs_row.
constexpr Doing doings_by_row[] = {idle,      rising,    rising,    rising,    waiting, inside,  releasing,
                                   releasing, releasing, releasing, releasing, rising,  waiting, releasing};

} // namespace

Doing doing_at(std::uint8_t row) { return doings_by_row[row]; }

const char *doing_text(Doing doing) {
    switch (doing) {
    case idle: return "idle";
    case rising: return "on its way up";
    case waiting: return "waiting";
    case inside: return "inside";
    default: return "releasing";
    }
}

std::string standing(const hmcs_state &state, std::uint32_t thread) {
    const hmcs::Place place = hmcs::place(state, thread);
    if (place.row == HMCS_ROW_IDLE || place.row == HMCS_ROW_INSIDE) {
        return place.row == HMCS_ROW_IDLE ? "is idle" : "is inside";
    }
    return std::string("is in ") + hmcs_row_name(place.row) + " of domain " + std::to_string(place.domain);
}

} // namespace tool
