// The page of a sweep: what follows from it, and for each threshold how the entries split and the largest wait.
#include "html.hpp"
#include "sweep.hpp"
#include "trees.hpp"

namespace tool {

namespace {

// The wait as the page shows it: "at least" if it is not known to be the largest.
std::string wait_text(const SweepRow &row) {
    return row.trial.missing.comparable() ? std::to_string(row.trial.waits.largest) : "at least " + std::to_string(row.trial.missing.at_least());
}

std::uint64_t largest_wait(const Sweep &sweep) {
    std::uint64_t largest = 1;
    for (const SweepRow &row : sweep.rows) {
        largest = std::max(largest, row.trial.missing.at_least());
    }
    return largest;
}

std::string chart_row(const SweepRow &row, std::uint64_t largest) {
    const bool comparable = row.trial.missing.comparable();
    std::string cells;
    for (const std::uint16_t threshold : row.thresholds) {
        cells += "<th scope=row>" + std::to_string(threshold);
    }
    const std::string why = comparable ? "" : "<div class=\"why\">" + escaped(row.trial.missing.why_not()) + "</div>";
    return std::string(comparable ? "<tr>" : "<tr class=hatched>") + cells + "<td>" + percent(row.trial.counts.root, row.trial.counts.entries) +
           "<td class=\"half\">" + share_bar(row.trial.counts) + "<td class=\"left half\">" +
           number_bar(wait_text(row), row.trial.missing.at_least(), largest) + why + "</td></tr>\n";
}

std::string chart(const Sweep &sweep, std::size_t schedule) {
    std::string head;
    for (const Axis &axis : sweep.axes) {
        head += "<th scope=col>" + escaped(sweep.axes.size() > 1 ? "threshold of " + axis.name : "threshold");
    }
    std::string rows;
    for (const SweepRow &row : sweep.rows) {
        rows += row.schedule == schedule ? chart_row(row, largest_wait(sweep)) : "";
    }
    return "<div class=\"scroll\"><table class=\"wide\"><caption>For each threshold, how the entries split and the largest wait</caption><thead><tr>" + head +
           "<th scope=col>root<th scope=col class=left>how the entries split<th scope=col class=left>largest wait, in entries of others</thead><tbody>\n" +
           rows + "</tbody></table></div>\n";
}

// A colour from light for the smallest wait of the rows that can be compared to strong for the largest.
std::string wait_colour(const Sweep &sweep, std::uint64_t wait) {
    std::uint64_t smallest = UINT64_MAX, largest = 0;
    for (const SweepRow &row : sweep.rows) {
        if (row.trial.missing.comparable()) {
            smallest = std::min(smallest, row.trial.waits.largest);
            largest = std::max(largest, row.trial.waits.largest);
        }
    }
    const std::uint64_t strength = smallest >= largest ? 0 : 36 * (wait - smallest) / (largest - smallest);
    return "hsl(33 90% " + std::to_string(94 - strength) + "%)";
}

// Two axes: one on the side, one above.
std::string grid(const Sweep &sweep, std::size_t schedule) {
    std::string head, rows;
    for (const std::uint16_t threshold : sweep.axes[1].thresholds) {
        head += "<th scope=col>" + std::to_string(threshold);
    }
    std::size_t in_line = 0;
    for (const SweepRow &row : sweep.rows) {
        if (row.schedule != schedule) {
            continue;
        }
        const bool comparable = row.trial.missing.comparable();
        rows += in_line == 0 ? "<tr><th scope=row>" + std::to_string(row.thresholds[0]) : "";
        rows += std::string("<td") + (comparable ? " style=\"background:" + wait_colour(sweep, row.trial.waits.largest) + "\"" : " class=hatched") + "><b>" +
                wait_text(row) + "</b><span>root " + percent(row.trial.counts.root, row.trial.counts.entries) + "</span>" +
                (comparable ? "" : "<span>" + escaped(row.trial.missing.why_not()) + "</span>");
        in_line = (in_line + 1) % sweep.axes[1].thresholds.size();
        rows += in_line == 0 ? "</td></tr>\n" : "";
    }
    return "<div class=\"scroll\"><table class=\"grid\"><caption>Largest wait, and below it the share of root entries. Rows: threshold of " +
           escaped(sweep.axes[0].name) + "; columns: threshold of " + escaped(sweep.axes[1].name) + "</caption><thead><tr><td></td>" + head +
           "</thead><tbody>\n" + rows + "</tbody></table></div>\n";
}

// What one axis of comparable rows shows: up to which threshold the wait does not grow, and from which on nothing changes.
std::string advice(const Sweep &sweep) {
    if (sweep.axes.size() != 1 || sweep.schedules.size() != 1) {
        return "";
    }
    std::vector<const SweepRow *> rows;
    for (const SweepRow &row : sweep.rows) {
        if (row.trial.missing.comparable()) {
            rows.push_back(&row);
        }
    }
    std::sort(rows.begin(), rows.end(), [](const SweepRow *a, const SweepRow *b) { return a->thresholds < b->thresholds; });
    if (rows.size() < 2) {
        return "";
    }
    const SweepRow *free = rows.front();
    for (const SweepRow *row : rows) {
        free = row->trial.waits.largest <= rows.front()->trial.waits.largest ? row : free;
    }
    const auto same = [](const SweepRow &a, const SweepRow &b) {
        return a.trial.counts.entries == b.trial.counts.entries && a.trial.counts.root == b.trial.counts.root &&
               a.trial.counts.crossed == b.trial.counts.crossed && a.trial.waits.total == b.trial.waits.total && a.trial.waits.largest == b.trial.waits.largest;
    };
    std::size_t settled = rows.size() - 1;
    while (settled > 0 && same(*rows[settled - 1], *rows.back())) {
        --settled;
    }
    const std::string first = std::to_string(rows.front()->thresholds[0]);
    std::string words = free == rows.front() ? " Every threshold above " + first + " makes the largest wait longer."
                                             : " Up to " + std::to_string(free->thresholds[0]) + " the largest wait is no longer than with " + first + ".";
    if (settled + 1 < rows.size()) {
        words += " From " + std::to_string(rows[settled]->thresholds[0]) + " on nothing changes on this schedule.";
    }
    return words;
}

std::string first_words(const Sweep &sweep) {
    std::string named;
    for (const Axis &axis : sweep.axes) {
        named += (named.empty() ? "" : " and of ") + axis.name;
    }
    std::size_t marked = 0;
    for (const SweepRow &row : sweep.rows) {
        marked += row.trial.missing.comparable() ? 0 : 1;
    }
    const std::string all = std::to_string(sweep.rows.size());
    const std::string compared = marked == 0 ? " All " + all + " rows can be compared."
                                             : " " + std::to_string(marked) + " of " + all +
                                                   " rows are hatched and must not be compared: threads or attempts are missing from their waits.";
    return "The threshold of " + named + " was tried on one tree." + compared + advice(sweep);
}

} // namespace

std::string sweep_page(const Sweep &sweep) {
    const bool two_axes = sweep.axes.size() == 2;
    std::string body;
    for (std::size_t schedule = 0; schedule < sweep.schedules.size(); ++schedule) {
        body += section("Schedule " + sweep.schedules[schedule].name(),
                        "A root entry took the lock across the root, which is slow; a passed one came from a neighbour, which is fast. Usually a larger "
                        "threshold has fewer root entries and longer waits.",
                        two_axes ? grid(sweep, schedule) : legend(kind_shades()) + chart(sweep, schedule));
    }
    body += section("The numbers", "", "<div class=\"scroll\">" + sweep_table(sweep).html("One row for each run") + "</div>\n");
    const std::optional<std::string> text = text_of(sweep.tree);
    body += section("The tree", text ? "As it was given: " + *text : "",
                    "<div class=\"scroll\">" + tree_table(sweep.tree).html("The domains, each below its parent") + "</div>\n");
    const bool stalled = std::any_of(sweep.rows.begin(), sweep.rows.end(), [](const SweepRow &row) { return row.trial.stalled(); });
    return page_of("Which threshold?", first_words(sweep),
                   std::string("Waits are counted in entries of other threads, not in time. They cover only attempts that ended; each row also says which "
                               "threads and attempts they leave out.") +
                       (stalled ? " If a largest wait is above the longest possible one, a thread that could move got no turn meanwhile." : ""),
                   body);
}

} // namespace tool
