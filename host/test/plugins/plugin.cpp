// A plugin that runs a schedule on a lock: thread 0 takes four steps and enters once.
#include "hmcs.hpp"

extern "C" __attribute__((visibility("default"))) unsigned plugin_entries() {
    auto read = hmcs::read_tree("(2(#2) 16(#1))");
    hmcs::Lock lock(read.tree);
    return lock.run({0, 0, 0, 0}).counts.entries;
}
