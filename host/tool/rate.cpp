// `rate`: the rate of a busy three-level lock, without a run.
#include "tool.hpp"
#include "trial.hpp"

#include <charconv>

namespace tool {

namespace {

std::string rate(const Words &words) {
    const std::vector<std::string> &w = words.others();
    const auto h1 = static_cast<std::uint16_t>(number("H1", w[0], 65535));
    const auto h2 = static_cast<std::uint16_t>(number("H2", w[1], 65535));
    const hmcs::RateResult result = hmcs::rate(h1, h2, {real_number("P1", w[2]), real_number("P2", w[3]), real_number("P3", w[4])});
    if (result.refused()) {
        refuse("rate", result.refusal);
    }
    char text[64]; // enough for the shortest digits that read back as the same number
    const auto written = std::to_chars(text, text + sizeof text, result.rate);
    return std::string(text, written.ptr) + " entries in one unit of the times\n";
}

} // namespace

Command rate_command() {
    return {"rate",
            "how many entries a busy lock makes per unit of time",
            "usage: hmcs rate H1 H2 P1 P2 P3\n"
            "Prints how many entries a busy lock of three levels makes in one unit of time, without a run. H1\n"
            "is the threshold of the threads' homes, H2 that of the domains between them and the root; P1, P2\n"
            "and P3 are how long it takes to pass the lock on within a home, between homes and across the root,\n"
            "in the same unit, each from 1/1024 to 1,048,576. The output is the shortest number that reads back\n"
            "as the same value.\n"
            "\n"
            "  hmcs rate 16 4 0.05 0.2 1\n",
            {},
            5,
            5,
            rate};
}

} // namespace tool
