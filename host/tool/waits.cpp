// `waits`: how long threads waited, in other threads' entries.
#include "waits.hpp"

#include "tool.hpp"
#include "trees.hpp"
#include "trial.hpp"

namespace tool {

namespace {

void add(Table &table, const hmcs::Waits &waits, std::uint64_t possible) {
    table.cell(waits.attempts);
    table.cell(waits.total);
    table.cell(std::to_string(waits.largest) + (waits.largest > possible ? bypassed : ""), Value(waits.largest));
    table.mean(waits.numerator, waits.denominator);
}

std::string waits(const Words &words) {
    const Input input = read_run(words);
    const Measured measured = measure(input.tree, input.schedule);
    if (measured.refusal.refused()) {
        refuse(words.others()[0], measured.refusal);
    }
    if (const Missing missing = measured.missing(); !missing.comparable()) {
        warn(words.others()[0] + ": " + missing.why_not() + "; its waits cannot be compared");
        warn_how_to_compare(true, missing.fewest_entries);
    }
    const hmcs::WaitBoundsResult bounds = hmcs::wait_bounds(input.tree);
    for (std::size_t thread = 0; thread < measured.threads.size(); ++thread) {
        if (measured.threads[thread].largest > bounds.threads[thread]) {
            warn("thread " + std::to_string(thread) + ": " + above_possible(measured.threads[thread].largest, bounds.threads[thread]));
        }
    }
    return printed(words, waits_table(input.tree, measured));
}

} // namespace

void add_under_way(Table &table, bool is_under_way, std::uint64_t entries) {
    if (is_under_way) {
        table.cell("at least " + std::to_string(entries), Value(entries));
    } else {
        table.cell("-", Value());
    }
}

Table waits_table(const hmcs::Tree &tree, const Measured &measured) {
    Table table;
    table.column("thread");
    table.column("home");
    table.column("attempts");
    table.column("total wait");
    table.column("largest wait");
    table.mean_column("mean wait");
    table.column("under way");
    table.column("longest possible wait");
    table.column("entered", Side::left);
    const hmcs::WaitBoundsResult bounds = hmcs::wait_bounds(tree);
    for (std::size_t thread = 0; thread < measured.threads.size(); ++thread) {
        const bool entered = measured.threads[thread].attempts != 0;
        const std::uint64_t under_way = measured.under_way[thread];
        table.row();
        table.cell(thread);
        table.cell(tree.words().homes[thread]);
        add(table, measured.threads[thread], bounds.threads[thread]);
        add_under_way(table, under_way != 0, under_way - 1);
        table.cell(capped(bounds.threads[thread]), Value(bounds.threads[thread]));
        table.cell(entered ? "yes" : "NEVER", Value::of_truth(entered));
        if (!entered) {
            table.mark();
        }
    }
    const Missing missing = measured.missing();
    table.row();
    table.cell("all");
    table.cell("", Value());
    add(table, measured.all, bounds.largest());
    add_under_way(table, missing.under_way != 0, missing.longest_under_way);
    table.cell(capped(bounds.largest()), Value(bounds.largest()));
    table.cell(missing.never_entered == 0 ? "yes" : "all but " + std::to_string(missing.never_entered), Value::of_truth(missing.never_entered == 0));
    return table;
}

Command waits_command() {
    return {"waits",
            "how long each thread of a lock file waited",
            "usage: hmcs waits FILE [--csv | --json]\n"
            "       hmcs waits TREE --schedule S [--ticket] ..\n"
            "Runs the schedule of a lock file from a fresh lock and prints for each thread, and for all\n"
            "together, how many attempts were finished and how long they waited in entries of other threads:\n"
            "the total, the largest, and the mean as an exact fraction and as a decimal. An attempt begins\n"
            "when the thread joins the queue of its home and ends when it is inside. An attempt that had not\n"
            "ended is not counted: the column `under way` says how long it has waited so far. A thread that never\n"
            "entered has no wait and is marked NEVER. The longest possible wait is proved: on no schedule does an\n"
            "attempt wait for more entries as long as nobody stalls. If a thread that could move gets no turn,\n"
            "an attempt may wait for more.\n"
            "\n"
            "  --csv, --json  for programs, the mean as numerator, denominator and decimal\n" +
                std::string(run_help) +
                "\n"
                "  hmcs waits two-sockets.lock\n",
            with_table_options(with_run_options({})),
            1,
            1,
            waits};
}

} // namespace tool
