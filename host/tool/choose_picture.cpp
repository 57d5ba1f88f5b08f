// The picture of a choice: a dot for each row, further right for a longer wait, higher for a more expensive entry.
#include "choose.hpp"

#include "html.hpp"

namespace tool {

namespace {

constexpr double width = 640, height = 300, left = 60, bottom = 40;

double cost_shown(const Trial &trial) {
    return trial.time ? *trial.time : 100.0 * static_cast<double>(trial.counts.root) / std::max<double>(1, static_cast<double>(trial.counts.entries));
}

std::string fixed(double number, int digits) {
    char text[64];
    std::snprintf(text, sizeof text, "%.*f", digits, number);
    return text;
}

} // namespace

std::string choice_picture(const Choice &choice) {
    std::vector<const Candidate *> all;
    for (const Candidate &candidate : choice.tried) {
        all.push_back(&candidate);
    }
    for (const Candidate &candidate : choice.above) {
        all.push_back(&candidate);
    }
    double most_wait = 1, most_cost = 0;
    for (const Candidate *one : all) {
        most_wait = std::max(most_wait, static_cast<double>(one->possible_wait));
        most_cost = std::max(most_cost, cost_shown(one->trial));
    }
    const auto x = [&](double wait) { return left + (width - left - 20) * wait / most_wait; };
    const auto y = [&](double cost) { return (height - bottom) - (height - bottom - 15) * cost / (most_cost == 0 ? 1 : most_cost); };
    std::string dots, label;
    for (const Candidate *one : all) {
        const bool chosen = one == &choice.tried[choice.chosen];
        dots += "<circle cx=\"" + fixed(x(static_cast<double>(one->possible_wait)), 1) + "\" cy=\"" + fixed(y(cost_shown(one->trial)), 1) + "\" r=\"" +
                (chosen ? "7" : "4.5") + "\" class=\"" +
                (chosen                              ? "chosen"
                 : one->possible_wait > choice.limit ? "beyond"
                                                     : "dot") +
                "\"/>";
        label += (label.empty() ? "" : "; ") + std::string("longest possible wait ") + std::to_string(one->possible_wait) + ", " + fixed(cost_shown(one->trial), 4) +
                 (chosen ? ", chosen" : "");
    }
    const std::string limit_x = fixed(x(std::min(most_wait, static_cast<double>(choice.limit))), 1);
    const std::string what = choice.times ? "time per entry" : "root entries, percent";
    return "<svg class=\"chart\" viewBox=\"0 0 640 300\" role=\"img\" aria-label=\"" + what + " against the longest possible wait: " + label + "\">" +
           "<path class=\"axis\" d=\"M60 15V260H620\"/><path class=\"limit\" d=\"M" + limit_x + " 15V260\"/>" + dots +
           "<text x=\"60\" y=\"285\">0</text><text x=\"620\" y=\"285\" text-anchor=\"end\">" + fixed(most_wait, 0) +
           "</text><text x=\"340\" y=\"285\" text-anchor=\"middle\">longest possible wait, in entries of others</text><text x=\"54\" y=\"24\" "
           "text-anchor=\"end\">" +
           fixed(most_cost, choice.times ? 3 : 1) + "</text><text x=\"54\" y=\"262\" text-anchor=\"end\">0</text><text x=\"70\" y=\"24\">" + what +
           "</text></svg>\n";
}

} // namespace tool
