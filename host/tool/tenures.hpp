// The table of a lock's counters for its domains, as `tenures` prints it and `page` shows it.
#ifndef HMCS_TENURES_HPP
#define HMCS_TENURES_HPP

#include "measured.hpp"
#include "table.hpp"

namespace tool {

Table tenures_table(const hmcs::Tree &tree, const Measured &measured);

} // namespace tool

#endif
