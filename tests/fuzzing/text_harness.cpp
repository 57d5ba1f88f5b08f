// Compares the library's text reader with the reference's, on texts that the fuzzer makes.
#include "../../host/include/hmcs.h"

#include <cstdio>
#include <cstdlib>
#include <cstring>
#include <vector>

extern "C" hmcs_text_reply reference_read_text(const uint8_t *text, size_t text_length);

extern "C" int LLVMFuzzerTestOneInput(const uint8_t *data, size_t size) {
    const std::vector<uint8_t> text(data, data + size);
    const hmcs_text_reply ours = hmcs_read_text(text.data(), text.size());
    const hmcs_text_reply wanted = reference_read_text(text.data(), text.size());
    if (ours.number != wanted.number || ours.place != wanted.place || std::memcmp(&ours.tree, &wanted.tree, sizeof ours.tree) != 0) {
        std::fprintf(stderr, "library: %u %zu, reference: %u %zu\n", ours.number, ours.place, wanted.number, wanted.place);
        std::abort();
    }
    return 0;
}
