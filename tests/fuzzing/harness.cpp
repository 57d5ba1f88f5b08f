// Compares the library's file call with the step table's, on files that the fuzzer makes. The first two bytes choose the length of the output buffer.
#include "../../host/include/hmcs.h"

#include <cstdio>
#include <cstdlib>
#include <cstring>
#include <vector>

extern "C" uint32_t reference_run_file(const uint8_t *file, size_t file_length, uint8_t *output, size_t output_length, uint32_t *place, uint32_t *length);

extern "C" int LLVMFuzzerTestOneInput(const uint8_t *data, size_t size) {
    if (size < 2)
        return 0;
    const size_t room = data[1] == 0 ? data[0] : 140000;
    const std::vector<uint8_t> file(data + 2, data + size);
    std::vector<uint8_t> ours(room + 16, 0xa5), theirs(room + 16, 0xa5);
    uint32_t place = 1, length = 1, wanted_place = 2, wanted_length = 2;
    const uint32_t number = hmcs_run_file(file.data(), file.size(), ours.data() + 8, room, &place, &length);
    const uint32_t wanted = reference_run_file(file.data(), file.size(), theirs.data() + 8, room, &wanted_place, &wanted_length);
    if (number != wanted || place != wanted_place || length != wanted_length || ours != theirs) {
        std::fprintf(stderr, "library: %u %u %u, step table: %u %u %u\n", number, place, length, wanted, wanted_place, wanted_length);
        std::abort();
    }
    return 0;
}
