// `run`: the counts of a lock file's run.
#include "measured.hpp"
#include "table.hpp"
#include "tool.hpp"

namespace tool {

namespace {

constexpr std::size_t most = 65536; // turns of one run

Table run_table(const Measured &measured) {
    const Totals &c = measured.counts;
    const Missing missing = measured.missing();
    Table table;
    table.column("what", Side::left);
    table.column("count");
    table.column("share");
    table.column("meaning", Side::left);
    const auto add = [&](const char *what, int indented, std::uint64_t count, std::uint64_t whole, const char *meaning) {
        table.row();
        table.cell(std::string(2 * indented, ' ') + what, Value::of_text(what));
        table.cell(count);
        if (whole == 0) {
            table.cell("", Value());
        } else {
            table.cell(percent(count, whole), Value::of_decimal(share(count, whole)));
        }
        table.cell(meaning);
    };
    add("steps", 0, c.steps, 0, "turns of the schedule");
    add("stays", 0, c.stays, c.steps, "of the steps: the thread only waited");
    add("entries", 0, c.entries, 0, "a thread got the lock");
    add("root", 1, c.root, c.entries, "of the entries: through the root, from another of its domains or free");
    add("crossed", 1, c.crossed, c.entries, "of the entries: passed on in a domain between home and root");
    add("passed", 1, c.passed, c.entries, "of the entries: passed on within the thread's home");
    add("never entered", 0, missing.never_entered, missing.threads, "of the threads: no entry");
    add("fewest entries", 0, missing.fewest_entries, 0, "of the thread that entered least");
    add("under way", 0, missing.under_way, 0, "attempts that had not ended");
    add("longest under way", 0, missing.longest_under_way, 0, "how many entries of others the longest of them has waited so far");
    return table;
}

std::string run(const Words &words) {
    if (words.has("--trace") && (words.has("--csv") || words.has("--json"))) {
        fail("run: --trace prints a thread number per line, without --csv or --json");
    }
    const Input input = read_run(words);
    if (words.has("--trace")) {
        std::string trace;
        hmcs::Lock lock(input.tree);
        for (std::size_t from = 0; from < input.schedule.size(); from += most) {
            for (const std::uint16_t thread : lock.run(input.schedule.data() + from, std::min(most, input.schedule.size() - from)).trace) {
                trace += std::to_string(thread) + "\n";
            }
        }
        return trace;
    }
    const Measured measured = measure(input.tree, input.schedule);
    if (measured.refusal.refused()) {
        refuse(words.others()[0], measured.refusal);
    }
    return printed(words, run_table(measured));
}

} // namespace

Command run_command() {
    return {"run",
            "the counts of a lock file's run",
            "usage: hmcs run FILE [--trace | --csv | --json]\n"
            "       hmcs run TREE --schedule S [--ticket] ..\n"
            "Runs the schedule of a lock file from a fresh lock and prints its counts: steps, how many of them\n"
            "were stays, entries and how they split. It also prints what these leave out: threads that never\n"
            "entered and attempts that had not ended.\n"
            "\n"
            "  --trace        prints the entering threads instead, one per line\n"
            "  --csv, --json  for programs\n" +
                std::string(run_help) +
                "\n"
                "  hmcs run two-sockets.lock\n",
            with_table_options(with_run_options({{"--trace", false}})),
            1,
            1,
            run};
}

} // namespace tool
