// `tenures`: how long each domain kept the lock.
#include "tenures.hpp"

#include "tool.hpp"
#include "trees.hpp"
#include "waits.hpp"

namespace tool {

namespace {

// The threads under a domain.
std::vector<std::size_t> threads_under(const hmcs::Tree &tree, std::uint32_t domain) {
    std::vector<std::size_t> threads;
    for (std::size_t thread = 0; thread < tree.words().threads; ++thread) {
        std::uint32_t above = tree.words().homes[thread];
        while (above > domain) { // a parent has a lower number
            above = tree.words().parents[above];
        }
        if (above == domain) {
            threads.push_back(thread);
        }
    }
    return threads;
}

std::string never_entered(const Missing &missing) {
    return missing.never_entered == 0 ? "0" : std::to_string(missing.never_entered) + " of " + std::to_string(missing.threads);
}

std::string tenures(const Words &words) {
    const Input input = read_run(words);
    const Measured measured = measure(input.tree, input.schedule);
    if (measured.refusal.refused()) {
        refuse(words.others()[0], measured.refusal);
    }
    if (const Missing missing = measured.missing(); !missing.comparable()) {
        warn(words.others()[0] + ": " + missing.why_not() + "; its entries cannot be compared");
        warn_how_to_compare(true, missing.fewest_entries);
    }
    return printed(words, tenures_table(input.tree, measured));
}

} // namespace

Table tenures_table(const hmcs::Tree &tree, const Measured &measured) {
    Table table;
    table.column("domain", Side::left);
    table.column("threshold");
    table.column("entries");
    table.column("tenures");
    table.column("longest tenure");
    table.column("fewest entries");
    table.column("never entered");
    table.column("under way");
    table.column("longest under way");
    for (const Domain &domain : domains_in_order(tree)) {
        const std::uint32_t d = domain.number;
        if (d != 0) {
            table.row();
            table.cell(std::string(2 * (domain.level - 2), ' ') + std::to_string(d), Value(d));
            table.cell(tree.words().thresholds[d]);
            table.cell(measured.state.entries[d]);
            table.cell(measured.state.tenures[d]);
            table.cell(measured.state.longest[d]);
            const Missing missing = measured.missing(threads_under(tree, d));
            table.cell(missing.fewest_entries);
            table.cell(never_entered(missing), Value(missing.never_entered));
            table.cell(missing.under_way);
            add_under_way(table, missing.under_way != 0, missing.longest_under_way);
            if (missing.never_entered != 0) {
                table.mark();
            }
        }
    }
    return table;
}

Command tenures_command() {
    return {"tenures",
            "how long each domain of a lock file kept the lock",
            "usage: hmcs tenures FILE [--csv | --json]\n"
            "       hmcs tenures TREE --schedule S [--ticket] ..\n"
            "Runs the schedule of a lock file from a fresh lock and prints for each domain, indented below its\n"
            "parent, how many entries its threads made, how many tenures it had, and the longest: how many of\n"
            "its members held the lock one after another before it was passed on above. A tenure is a period at\n"
            "the head of the queue above. None is longer than the threshold. The last four columns are about the\n"
            "threads under the domain: the entries of the one that entered least, how many never entered, how\n"
            "many attempts had not ended, and how long the longest of these has waited so far, in entries of\n"
            "others. A domain with a thread that never entered is marked.\n"
            "\n"
            "  --csv, --json  for programs\n" +
                std::string(run_help) +
                "\n"
                "  hmcs tenures two-sockets.lock\n",
            with_table_options(with_run_options({})),
            1,
            1,
            tenures};
}

} // namespace tool
