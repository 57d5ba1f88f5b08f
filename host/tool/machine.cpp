// `machine`: the tree of a computer, from the output of lscpu.
#include "layout.hpp"
#include "tool.hpp"

#include <cstdio>

namespace tool {

namespace {

// The output of lscpu on this computer.
std::string run_lscpu() {
    std::FILE *pipe = popen("lscpu -p=CPU,CORE,SOCKET,NODE,CACHE 2>/dev/null", "r");
    if (pipe == nullptr) {
        fail("lscpu could not be run");
    }
    std::string lines;
    char piece[4096];
    for (std::size_t got = std::fread(piece, 1, sizeof piece, pipe); got > 0; got = std::fread(piece, 1, sizeof piece, pipe)) {
        lines.append(piece, got);
    }
    if (pclose(pipe) != 0) {
        fail("lscpu failed or was not found (Debian: apt-get install util-linux); give a file with its output instead");
    }
    return lines;
}

std::size_t domains_in(const Group &group) {
    std::size_t count = 1;
    for (const Group &inner : group.groups) {
        count += domains_in(inner);
    }
    return count;
}

// Reports a machine that is too large for a lock, with its number.
void test_size(const Group &machine) {
    const std::size_t threads = in_order(machine).size();
    if (threads > HMCS_THREADS) {
        fail("this machine has " + std::to_string(threads) + " workers, but a lock has at most 256 threads; use --threads N to spread fewer over it");
    }
    if (domains_in(machine) > HMCS_DOMAINS) {
        fail("this machine has " + std::to_string(domains_in(machine)) + " groups, but a lock has at most 64 domains");
    }
}

Table workers_table(const Group &machine) {
    Table table;
    for (const char *name : {"thread", "processor", "core", "socket", "node", "last cache"}) {
        table.column(name);
    }
    std::uint64_t thread = 0;
    for (const Processor &processor : in_order(machine)) {
        table.row();
        table.cell(thread++);
        table.cell(processor.number);
        for (const std::string &word : {processor.core, processor.socket, processor.node, processor.cache}) {
            table.cell(word, word.empty() ? Value() : Value::of_text(word));
        }
    }
    return table;
}

std::string machine(const Words &words) {
    const bool named = !words.others().empty();
    const std::string name = named ? words.others()[0] : "lscpu";
    const std::vector<Processor> processors = read_layout(name, named ? read_bytes(name, SIZE_MAX) : run_lscpu());
    Group group = grouped(words.has("--smt") ? processors : one_per_core(processors));
    if (words.has("--threads")) {
        const std::uint64_t workers = number("--threads", words.value("--threads", ""), HMCS_THREADS);
        if (workers == 0) {
            fail("--threads must be at least 1");
        }
        group = spread(group, workers);
    }
    test_size(group);
    if (words.has("--workers") || words.has("--csv") || words.has("--json")) {
        return printed(words, workers_table(group));
    }
    return text_of(group) + "\n";
}

} // namespace

Command machine_command() {
    return {"machine",
            "the tree of a computer, as text",
            "usage: hmcs machine [FILE] [--smt] [--threads N] [--workers | --csv | --json]\n"
            "Prints the tree of a computer as text: its sockets or NUMA nodes, within them the groups of cores\n"
            "that share a last-level cache, and one thread for each core. A group with one member is left out.\n"
            "Each threshold is the number of the domain's members: as long as nobody stalls, no thread waits\n"
            "longer than under a fair lock. FILE is what `lscpu -p=CPU,CORE,SOCKET,NODE,CACHE` printed on another\n"
            "computer; without FILE, lscpu runs on this one.\n"
            "\n"
            "  --smt          one thread for each logical processor\n"
            "  --threads N    N threads, spread evenly over the cores\n"
            "  --workers      prints which processor each thread is for, instead of the text\n"
            "  --csv, --json  the same for programs\n"
            "\n"
            "  hmcs tree \"$(hmcs machine)\"\n",
            with_table_options({{"--smt", false}, {"--threads", true}, {"--workers", false}}),
            0,
            1,
            machine};
}

} // namespace tool
