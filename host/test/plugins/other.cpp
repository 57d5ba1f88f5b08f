// A plugin with a function of its own, exported, that has a name of the library's.
#include "hmcs.h"

extern "C" __attribute__((visibility("default"))) hmcs_run_reply hmcs_run(hmcs_tree, hmcs_state, const uint16_t *, size_t, uint16_t *, size_t) {
    hmcs_run_reply reply = {};
    reply.entries = 1000;
    return reply;
}

extern "C" __attribute__((visibility("default"))) unsigned plugin_entries() { return hmcs_run({}, {}, nullptr, 0, nullptr, 0).entries; }
