// A tree for people: its domains in the order of its text, their levels and threads, and its text.
#ifndef HMCS_TREES_HPP
#define HMCS_TREES_HPP

#include "table.hpp"

#include <optional>

namespace tool {

// A domain with its position in the tree: the root at level 1, each domain after its parent and before what follows on the parent's level.
struct Domain {
    std::uint32_t number;
    std::uint32_t level;
};

std::vector<Domain> domains_in_order(const hmcs::Tree &tree);
std::vector<std::uint32_t> threads_at_home(const hmcs::Tree &tree, std::uint32_t domain);
// How many members a domain has: its child domains, or the threads at home in it.
std::uint32_t members_of(const hmcs::Tree &tree, std::uint32_t domain);
// Numbers, with consecutive ones as a range: "0-3 8".
std::string ranges(const std::vector<std::uint32_t> &numbers);
// The text of this tree, if there is one: a queue root, domains in the order of their opening parentheses, threads leaf by leaf.
std::optional<std::string> text_of(const hmcs::Tree &tree);
// A number that the library caps at 2^64 - 1, for people.
std::string capped(std::uint64_t number);
// The domains of an accepted tree, indented by level.
Table tree_table(const hmcs::Tree &tree);

} // namespace tool

#endif
