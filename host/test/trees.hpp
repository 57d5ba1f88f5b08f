// Trees and the schedule of the specification's example: shared by the host's tests.
#ifndef HMCS_TEST_TREES_HPP
#define HMCS_TEST_TREES_HPP

#include "hmcs.hpp"

#include <cstdint>
#include <vector>

// The 22 entries of the example.
inline const std::vector<std::uint16_t> schedule22 = {0, 0, 0, 0, 1, 1, 1, 1, 0, 0, 0, 1, 2, 2, 2, 2, 2, 1, 1, 1, 1, 2};

// Threads at home at a root of this kind.
inline hmcs::Tree root_alone(hmcs::RootKind root, int threads) {
    hmcs::Tree tree(root);
    for (int i = 0; i < threads; ++i) {
        tree.add_thread(0);
    }
    return tree;
}

// Two domains below the root, thresholds 2 and 16; threads 0 and 1 in the first, 2 in the second. With a queue root it is the tree of the example.
inline hmcs::Tree two_domains(hmcs::RootKind root) {
    hmcs::Tree tree(root);
    tree.add_domain(0, 2);
    tree.add_domain(0, 16);
    tree.add_thread(1);
    tree.add_thread(1);
    tree.add_thread(2);
    return tree;
}

inline hmcs::Tree example_tree() { return two_domains(hmcs::RootKind::queue); }

#endif
