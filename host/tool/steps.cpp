// `steps`: one line for each step.
#include "places.hpp"
#include "table.hpp"
#include "tool.hpp"

namespace tool {

namespace {

std::string steps(const Words &words) {
    const Input input = read_run(words);
    const std::size_t from = number("--from", words.value("--from", "0"), UINT32_MAX);
    const std::size_t count = number("--count", words.value("--count", "4294967295"), UINT32_MAX);
    if (from > 0 && from >= input.schedule.size()) {
        fail("--from: the schedule has " + std::to_string(input.schedule.size()) + " turns, numbered from 0");
    }
    hmcs::Lock lock(input.tree);
    Table table;
    table.column("turn");
    table.column("thread");
    table.column("domain");
    table.column("row", Side::left);
    table.column("what it does there", Side::left);
    table.column("kind", Side::left);
    table.column("inside", Side::left);
    for (std::size_t k = 0; k < input.schedule.size() && k < from + count; ++k) {
        const std::uint16_t thread = input.schedule[k];
        const std::uint8_t row = lock.state().places.rows[thread];
        const hmcs::StepResult step = lock.step(thread);
        if (k < from) {
            continue;
        }
        const auto holder = lock.holder();
        table.row();
        table.cell(k);
        table.cell(thread);
        table.cell(step.domain);
        table.cell(hmcs_row_name(row));
        table.cell(hmcs_row_text(row));
        table.cell(hmcs::text(step.kind));
        table.cell(holder ? "thread " + std::to_string(*holder) : "nobody");
    }
    return printed(words, table);
}

} // namespace

Command steps_command() {
    return {"steps",
            "one line for each step of a lock file's run",
            "usage: hmcs steps FILE [--from K] [--count N] [--csv | --json]\n"
            "       hmcs steps TREE --schedule S [--ticket] ..\n"
            "Steps through a lock file's schedule from a fresh lock and prints a line for each step: the turn,\n"
            "the thread, the domain it is at, the row of the step table and what that does, the step's kind,\n"
            "and who is inside after it.\n"
            "\n"
            "  --from K       the first turn to print, from 0\n"
            "  --count N      how many to print\n"
            "  --csv, --json  for programs\n" +
                std::string(run_help) +
                "\n"
                "  hmcs steps two-sockets.lock --from 100 --count 20\n",
            with_table_options(with_run_options({{"--from", true}, {"--count", true}})),
            1,
            1,
            steps};
}

} // namespace tool
