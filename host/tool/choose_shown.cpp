// The output of `choose`: a sentence, a table for people or for programs, and a page.
#include "choose.hpp"
#include "html.hpp"
#include "tool.hpp"
#include "trees.hpp"

#include <cmath>
#include <functional>

namespace tool {

namespace {

std::string name_of(const Choice &choice, const Candidate &candidate) {
    std::string name;
    for (std::size_t k = 0; k < choice.levels.size(); ++k) {
        name += (k == 0 ? "level " : ", level ") + std::to_string(choice.levels[k].number) + ": " + std::to_string(candidate.thresholds[k]);
    }
    return name;
}

std::string against(const Choice &choice, const Candidate &other) {
    const double mine = cost_of(choice.tried[choice.chosen].trial), theirs = cost_of(other.trial);
    char text[64];
    std::snprintf(text, sizeof text, "%.0f %%", std::abs(100 * (1 - theirs / mine)));
    return std::string(text) + (theirs > mine ? " more " : choice.times ? " less " : " fewer ") + (choice.times ? "time per entry" : "root entries");
}

std::string advice(const Choice &choice) {
    const Candidate &best = choice.tried[choice.chosen];
    const std::optional<std::string> text = text_of(with_thresholds(choice.tree, choice.levels, best.thresholds));
    return "Take " + name_of(choice, best) + (text ? ", that is " + *text : "") + ": no thread waits for more than " + std::to_string(best.possible_wait) +
           " entries of others as long as nobody stalls, and " +
           (choice.times ? "an entry takes " + four_digits(cost_of(best.trial)) + " on average."
                         : percent(best.trial.counts.root, best.trial.counts.entries) + " of the entries go through the root.");
}

// What the next ones would cost, a line each.
std::string beyond(const Choice &choice) {
    std::string lines;
    for (const Candidate &other : choice.above) {
        lines += name_of(choice, other) + ": " + against(choice, other) + ", longest possible wait " + std::to_string(other.possible_wait) + ", above " +
                 std::to_string(choice.limit) + "\n";
    }
    return lines;
}

// The columns that name a choice.
void add_choice_columns(const Choice &choice, Table &table) {
    for (const Level &level : choice.levels) {
        table.column("threshold of level " + std::to_string(level.number));
    }
    table.column("choice", Side::left);
}

void add_choice(const Candidate &candidate, const char *said, Table &table) {
    table.row();
    for (const std::uint16_t threshold : candidate.thresholds) {
        table.cell(threshold);
    }
    table.cell(said, *said == '\0' ? Value() : Value::of_text(said));
    if (!candidate.trial.missing.comparable()) {
        table.mark();
    }
}

// A row for each of them, to which the figures are added.
void add_rows(const Choice &choice, Table &table, const std::function<void(const Trial &)> &add_figures) {
    for (std::size_t k = 0; k < choice.tried.size(); ++k) {
        add_choice(choice.tried[k], k == choice.chosen ? "chosen" : "", table);
        add_figures(choice.tried[k].trial);
    }
    for (const Candidate &candidate : choice.above) {
        add_choice(candidate, "waits too long", table);
        add_figures(candidate.trial);
    }
}

// The deciding columns: no observed wait, so nothing that a run leaves out.
Table deciding_table(const Choice &choice) {
    Table table;
    add_choice_columns(choice, table);
    table.column("longest possible wait");
    if (choice.hold) {
        table.column("longest possible wait in time");
    }
    if (choice.times) {
        table.column("time per entry");
    }
    for (const char *name : {"root", "crossed", "passed"}) {
        table.column(name);
    }
    add_rows(choice, table, [&](const Trial &trial) {
        table.cell(capped(trial.possible_wait), Value(trial.possible_wait));
        if (choice.hold) {
            add_time(table, trial.longest_time);
        }
        if (choice.times) {
            add_time(table, trial.time);
        }
        for (const std::uint64_t count : {trial.counts.root, trial.counts.crossed, trial.counts.passed}) {
            table.cell(percent(count, trial.counts.entries));
        }
    });
    return table;
}

// For the page: what the next ones would cost, a line of a list each.
std::string longer_waits(const Choice &choice) {
    if (choice.above.empty()) {
        return "";
    }
    std::string items;
    for (const std::string &line : split(beyond(choice), '\n')) {
        items += line.empty() ? "" : "<li>" + escaped(line) + "</li>\n";
    }
    return section("What a longer wait would gain", "", "<ul>\n" + items + "</ul>\n");
}

} // namespace

Table choice_table(const Choice &choice) {
    Table table;
    add_choice_columns(choice, table);
    const Shown shown{choice.times.has_value(), false, choice.hold.has_value()};
    add_trial_columns(table, shown);
    add_rows(choice, table, [&](const Trial &trial) { add_trial(table, trial, shown); });
    return table;
}

std::string choice_text(const Choice &choice) { return advice(choice) + "\n" + beyond(choice) + "\n" + deciding_table(choice).text(); }

std::string choice_page(const Choice &choice) {
    return page_of("Which thresholds?", advice(choice),
                   "Every row is a run of " + choice.schedule +
                       " from a fresh lock. The longest possible wait is proved for every schedule as long as nobody stalls; "
                       "the other figures are those of the run.",
                   section("Time against the longest wait", "Each dot is a row of the table; the chosen one is filled.", choice_picture(choice)) +
                       longer_waits(choice) +
                       section("The rows that nothing else beats", "",
                               "<div class=\"scroll\">" + choice_table(choice).html("One row for each choice of thresholds") + "</div>\n") +
                       section("The tree", "", "<div class=\"scroll\">" + tree_table(choice.tree).html("The domains, each below its parent") + "</div>\n"));
}

} // namespace tool
