// Compares the library's check of a journal with the step table's. The first byte of the fuzzer's input chooses a tree, and the rest is the journal.
#include "../../host/include/hmcs.h"

#include <cstdio>
#include <cstdlib>
#include <vector>

extern "C" hmcs_journal_answer reference_check_journal(hmcs_tree tree, const uint8_t *journal, size_t journal_length);

namespace {

hmcs_tree tree_of(std::vector<uint8_t> parents, std::vector<uint16_t> thresholds, std::vector<uint8_t> homes, uint32_t ticket_root) {
    hmcs_tree tree = {};
    tree.domains = static_cast<uint32_t>(parents.size());
    tree.threads = static_cast<uint32_t>(homes.size());
    for (size_t d = 0; d < parents.size(); ++d) {
        tree.parents[d] = parents[d];
        tree.thresholds[d] = thresholds[d];
    }
    for (size_t i = 0; i < homes.size(); ++i) {
        tree.homes[i] = homes[i];
    }
    tree.ticket_root = ticket_root;
    return tree;
}

// The lowest two bits choose the root alone, two domains, three levels, or the largest number of threads. Bit 2 chooses the kind of root.
hmcs_tree named_tree(uint8_t byte) {
    const uint32_t ticket_root = byte & 4;
    switch (byte & 3) {
    case 0: return tree_of({0}, {0}, {0, 0}, ticket_root);
    case 1: return tree_of({0, 0, 0}, {0, 2, 16}, {1, 1, 2}, ticket_root);
    case 2: return tree_of({0, 0, 1, 1}, {0, 2, 1, 1}, {2, 3}, ticket_root);
    default: return tree_of({0, 0}, {0, 3}, std::vector<uint8_t>(256, 1), ticket_root);
    }
}

} // namespace

extern "C" int LLVMFuzzerTestOneInput(const uint8_t *data, size_t size) {
    if (size == 0) {
        return 0;
    }
    const hmcs_tree tree = named_tree(data[0]);
    const std::vector<uint8_t> journal(data + 1, data + size);
    const hmcs_journal_answer ours = hmcs_check_journal(tree, journal.data(), journal.size());
    const hmcs_journal_answer wanted = reference_check_journal(tree, journal.data(), journal.size());
    if (ours.number != wanted.number || ours.place != wanted.place) {
        std::fprintf(stderr, "library: %u %zu, reference: %u %zu\n", ours.number, ours.place, wanted.number, wanted.place);
        std::abort();
    }
    return 0;
}
