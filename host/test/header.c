/* The header in C: the version's parts and its text say the same, and calls by value come back whole, the last of a state's words too. */
#include "hmcs.h"

#include <stdio.h>
#include <string.h>

int main(void) {
    char version[32];
    const uint8_t text[] = "(2(#2) 16(#1))";
    hmcs_text_reply read = hmcs_read_text(text, sizeof text - 1);
    hmcs_fresh_reply fresh = hmcs_fresh(read.tree, 0);
    hmcs_step_reply step = hmcs_step(read.tree, fresh.state, 2);
    hmcs_state full = fresh.state;
    hmcs_step_reply refused;
    full.longest[HMCS_DOMAINS - 1] = HMCS_MOST_COUNTED;
    refused = hmcs_step(read.tree, full, 2);
    snprintf(version, sizeof version, "%d.%d.%d", HMCS_VERSION_MAJOR, HMCS_VERSION_MINOR, HMCS_VERSION_PATCH);
    if (strcmp(version, HMCS_VERSION) != 0) {
        fprintf(stderr, "the version is %s in parts and %s as a text\n", version, HMCS_VERSION);
        return 1;
    }
    if (read.number != HMCS_ACCEPTED || fresh.number != HMCS_ACCEPTED || step.number != HMCS_ACCEPTED || step.domain != 2 ||
        step.state.places.rows[2] != HMCS_ROW_SWAP) {
        fprintf(stderr, "%s, %s\n", hmcs_refusal_text(step.number), hmcs_kind_text(step.kind));
        return 1;
    }
    if (refused.number != HMCS_BAD_STATE || refused.state.longest[HMCS_DOMAINS - 1] != HMCS_MOST_COUNTED || refused.state.tenures[HMCS_DOMAINS - 1] != 0) {
        fprintf(stderr, "a counter of unused room: %s\n", hmcs_refusal_text(refused.number));
        return 1;
    }
    return 0;
}
