#include "layout.hpp"

#include "tool.hpp"

#include <map>
#include <set>
#include <sstream>

namespace tool {

namespace {

// Columns are separated by commas; newer versions of lscpu separate the caches within their column by colons.
std::vector<std::string> fields_of(const std::string &line) {
    std::vector<std::string> fields;
    for (const std::string &column : split(line, ',')) {
        for (const std::string &field : split(column, ':')) {
            fields.push_back(field);
        }
    }
    return fields;
}

bool is_cache(const std::string &name) { return name.size() > 1 && name[0] == 'L' && name[1] >= '1' && name[1] <= '9'; }

// The names of the columns, from the last comment that has them.
std::vector<std::string> names_of(const std::string &lines) {
    std::vector<std::string> names{"CPU", "Core", "Socket", "Node"};
    std::istringstream input(lines);
    for (std::string line; std::getline(input, line);) {
        if (line.rfind("# CPU,", 0) == 0) {
            names = fields_of(line.substr(2));
        }
    }
    return names;
}

Processor processor_of(const std::string &name, const std::string &line, const std::vector<std::string> &names) {
    const std::vector<std::string> fields = fields_of(line);
    Processor processor;
    processor.number = number(name + ": a processor", fields[0], UINT32_MAX);
    for (std::size_t k = 1; k < std::min(fields.size(), names.size()); ++k) {
        std::string *const field = names[k] == "Core"     ? &processor.core
                                   : names[k] == "Socket" ? &processor.socket
                                   : names[k] == "Node"   ? &processor.node
                                                          : nullptr;
        if (field != nullptr) {
            *field = fields[k];
        } else if (is_cache(names[k]) && !fields[k].empty()) {
            processor.cache = names[k] + " " + fields[k]; // the columns go from the first cache to the last
        }
    }
    return processor;
}

// Which group each processor is in, by one of its properties.
using Partition = std::vector<std::string>;

std::size_t parts(const Partition &partition) { return std::set<std::string>(partition.begin(), partition.end()).size(); }

// Each part of the finer one lies within one part of the coarser one.
bool nests(const Partition &coarser, const Partition &finer) {
    std::map<std::string, std::string> outer;
    for (std::size_t k = 0; k < finer.size(); ++k) {
        if (outer.emplace(finer[k], coarser[k]).first->second != coarser[k]) {
            return false;
        }
    }
    return true;
}

// The partitions that make levels, the coarsest first: more than one part, fewer than processors, each within the one before and finer.
std::vector<Partition> levels_of(const std::vector<Processor> &processors) {
    std::vector<Partition> found(3), levels;
    for (const Processor &p : processors) {
        found[0].push_back(p.socket);
        found[1].push_back(p.node);
        found[2].push_back(p.cache);
    }
    std::stable_sort(found.begin(), found.end(), [](const Partition &a, const Partition &b) { return parts(a) < parts(b); });
    for (const Partition &partition : found) {
        const bool says_something = parts(partition) > 1 && parts(partition) < processors.size();
        const bool finer = levels.empty() || (parts(partition) > parts(levels.back()) && nests(levels.back(), partition));
        if (says_something && finer) {
            levels.push_back(partition);
        }
    }
    return levels;
}

// A group of one group is that one; groups of one worker each are workers of the group around them.
Group simplified(const Group &group) {
    if (group.groups.size() == 1) {
        return group.groups.front();
    }
    Group flat;
    for (const Group &inner : group.groups) {
        if (inner.workers.size() != 1) {
            return group;
        }
        flat.workers.push_back(inner.workers.front());
    }
    return group.groups.empty() ? group : flat;
}

// The processors with these indices, grouped by the levels from this one on.
Group group_of(const std::vector<Processor> &processors, const std::vector<std::size_t> &indices, const std::vector<Partition> &levels, std::size_t level) {
    Group group;
    if (level == levels.size()) {
        for (const std::size_t k : indices) {
            group.workers.push_back(processors[k]);
        }
        return group;
    }
    std::vector<std::pair<std::string, std::vector<std::size_t>>> inner; // in the order of the first processor of each
    for (const std::size_t k : indices) {
        const std::string &name = levels[level][k];
        const auto at = std::find_if(inner.begin(), inner.end(), [&](const auto &one) { return one.first == name; });
        if (at == inner.end()) {
            inner.push_back({name, {k}});
        } else {
            at->second.push_back(k);
        }
    }
    for (const auto &[name, members] : inner) {
        group.groups.push_back(group_of(processors, members, levels, level + 1));
    }
    return simplified(group);
}

void add_in_order(const Group &group, std::vector<Processor> &found) {
    for (const Group &inner : group.groups) {
        add_in_order(inner, found);
    }
    found.insert(found.end(), group.workers.begin(), group.workers.end());
}

// A group with this many workers on each of its processors, in order; empty groups are removed.
Group refilled(const Group &group, const std::vector<std::uint64_t> &counts, std::size_t &at) {
    Group filled;
    for (const Processor &processor : group.workers) {
        filled.workers.insert(filled.workers.end(), counts[at++], processor);
    }
    for (const Group &inner : group.groups) {
        const Group one = refilled(inner, counts, at);
        if (one.members() != 0) {
            filled.groups.push_back(one);
        }
    }
    return simplified(filled);
}

} // namespace

std::vector<Processor> read_layout(const std::string &name, const std::string &lines) {
    const std::vector<std::string> names = names_of(lines);
    std::vector<Processor> processors;
    std::istringstream input(lines);
    for (std::string line; std::getline(input, line);) {
        if (!line.empty() && line.back() == '\r') {
            line.pop_back();
        }
        if (line.empty() || line[0] == '#') {
            continue;
        }
        const Processor processor = processor_of(name, line, names);
        if (!processor.core.empty()) { // one that is offline has only its number
            processors.push_back(processor);
        }
    }
    if (processors.empty()) {
        fail(name + ": no processor; expected the output of `lscpu -p=CPU,CORE,SOCKET,NODE,CACHE`");
    }
    std::stable_sort(processors.begin(), processors.end(), [](const Processor &a, const Processor &b) { return a.number < b.number; });
    return processors;
}

std::vector<Processor> one_per_core(const std::vector<Processor> &processors) {
    std::vector<Processor> found;
    std::set<std::pair<std::string, std::string>> seen;
    for (const Processor &processor : processors) {
        if (seen.emplace(processor.socket, processor.core).second) {
            found.push_back(processor);
        }
    }
    return found;
}

Group grouped(const std::vector<Processor> &processors) {
    std::vector<std::size_t> all;
    for (std::size_t k = 0; k < processors.size(); ++k) {
        all.push_back(k);
    }
    return group_of(processors, all, levels_of(processors), 0);
}

Group spread(const Group &machine, std::uint64_t workers) {
    const std::uint64_t processors = in_order(machine).size();
    std::vector<std::uint64_t> counts(processors);
    for (std::uint64_t worker = 0; worker < workers; ++worker) {
        ++counts[worker * processors / workers];
    }
    std::size_t at = 0;
    return refilled(machine, counts, at);
}

std::string text_of(const Group &machine) {
    std::string inside;
    for (const Group &group : machine.groups) {
        inside += (inside.empty() ? "" : " ") + std::to_string(group.members()) + text_of(group);
    }
    return "(" + (machine.groups.empty() ? "#" + std::to_string(machine.workers.size()) : inside) + ")";
}

std::vector<Processor> in_order(const Group &machine) {
    std::vector<Processor> found;
    add_in_order(machine, found);
    return found;
}

} // namespace tool
