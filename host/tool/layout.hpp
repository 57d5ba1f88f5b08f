// The layout of a computer, as lscpu prints it, and the tree that follows from it.
#ifndef HMCS_LAYOUT_HPP
#define HMCS_LAYOUT_HPP

#include <cstdint>
#include <string>
#include <vector>

namespace tool {

// A worker's place: a processor and its groups. What lscpu does not report is empty.
struct Processor {
    std::uint64_t number = 0;
    std::string core, socket, node, cache; // the cache is the last one on its way to memory, with its level: "L3 0"
};

// The online processors in the output of `lscpu -p=CPU,CORE,SOCKET,NODE,CACHE`; the name is for errors.
std::vector<Processor> read_layout(const std::string &name, const std::string &lines);

// One processor of each core, the one with the lowest number, in the order of the processors.
std::vector<Processor> one_per_core(const std::vector<Processor> &processors);

// A group of processors: its groups, or if it has none its own workers, by processor.
struct Group {
    std::vector<Group> groups;
    std::vector<Processor> workers;

    std::size_t members() const { return groups.empty() ? workers.size() : groups.size(); }
};

// The machine as groups within groups: sockets or nodes, and cores that share a last-level cache. A group with one member is left out.
Group grouped(const std::vector<Processor> &processors);
// This many workers, spread evenly over the processors; groups without a worker are left out.
Group spread(const Group &machine, std::uint64_t workers);

// The text of the tree, with the number of members as each threshold.
std::string text_of(const Group &machine);
// The processors in the order of the tree's threads.
std::vector<Processor> in_order(const Group &machine);

} // namespace tool

#endif
