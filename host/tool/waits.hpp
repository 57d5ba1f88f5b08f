// The table of waits, as `waits` prints it and `page` shows it.
#ifndef HMCS_WAITS_HPP
#define HMCS_WAITS_HPP

#include "measured.hpp"
#include "table.hpp"

namespace tool {

Table waits_table(const hmcs::Tree &tree, const Measured &measured);

// A cell for an attempt under way, by the entries of others since it began; "-" if there is none.
void add_under_way(Table &table, bool is_under_way, std::uint64_t entries);

} // namespace tool

#endif
