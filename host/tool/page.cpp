// `page`: a page about a run.
#include "html.hpp"
#include "tenures.hpp"
#include "timeline.hpp"
#include "tool.hpp"
#include "trees.hpp"
#include "waits.hpp"

#include <filesystem>

namespace tool {

namespace {

std::vector<Shade> doing_shades() {
    return {{"idle", "idle"}, {"rising", "on its way up"}, {"waiting", "waiting"}, {"inside", "inside"}, {"releasing", "releasing"}};
}

std::string scrolled(const Table &table, const std::string &caption) { return "<div class=\"scroll\">" + table.html(caption) + "</div>\n"; }

std::string tree_section(const hmcs::Tree &tree) {
    const std::optional<std::string> text = text_of(tree);
    const std::uint32_t domains = tree.words().domains;
    const std::string table = scrolled(tree_table(tree), "The domains, each below its parent");
    return section("The tree", text ? "As text: " + *text : "", domains <= 16 ? table : folded("All " + std::to_string(domains) + " domains", table, false));
}

std::string counts_section(const Totals &c) {
    const std::string words = std::to_string(c.steps) + " steps, of which " + std::to_string(c.stays) + " (" + percent(c.stays, c.steps) +
                              ") were stays: the thread only waited. A thread got the lock " + std::to_string(c.entries) + " times: " + std::to_string(c.root) +
                              " through the root (" + percent(c.root, c.entries) + "), " + std::to_string(c.crossed) + " crossed (" +
                              percent(c.crossed, c.entries) + "), " + std::to_string(c.passed) + " passed (" + percent(c.passed, c.entries) + ").";
    return section("The entries", words, share_bar(c) + legend(kind_shades()));
}

std::string timeline_section(const hmcs::Tree &tree, const Recording &recording, std::size_t from, std::size_t count) {
    const bool gathered = are_gathered(tree, recording.turns);
    const std::string words =
        gathered ? "Each column covers several turns: a thread that was inside in one of them is shown inside, otherwise as what it did longest." : "";
    std::string shown = section("Who did what", words, legend(doing_shades()) + lanes(tree, recording, 0, recording.turns));
    const std::size_t to = std::min(recording.turns, from + count);
    if (from < to && (gathered || from > 0 || to < recording.turns)) {
        shown += section("Turns " + std::to_string(from) + " to " + std::to_string(to - 1) + ", turn by turn", "",
                         legend(doing_shades()) + lanes(tree, recording, from, to));
    }
    return shown;
}

std::string entries_section(const Recording &recording) {
    constexpr std::size_t most_lines = 10000; // of a longer run the first ones
    const std::size_t count = std::min(recording.entries.size(), most_lines);
    std::string lines;
    for (std::size_t k = 0; k < count; ++k) {
        const Entry &entry = recording.entries[k];
        const char *kind = entry.kind == hmcs::Kind::root_entry ? "root" : entry.kind == hmcs::Kind::crossed_entry ? "crossed" : "passed";
        lines += "turn " + std::to_string(entry.turn) + "  thread " + std::to_string(entry.thread) + "  " + kind + "\n";
    }
    const std::string title = count < recording.entries.size() ? "The first " + std::to_string(count) + " of " : "All ";
    return folded(title + std::to_string(recording.entries.size()) + " entries, one a line", "<pre>" + lines + "</pre>\n", false);
}

std::string waits_section(const hmcs::Tree &tree, const Measured &result) {
    std::uint64_t largest = 1;
    for (std::size_t thread = 0; thread < result.threads.size(); ++thread) {
        largest = std::max({largest, result.threads[thread].largest, result.under_way[thread]});
    }
    std::string rows;
    for (std::size_t thread = 0; thread < result.threads.size(); ++thread) {
        const hmcs::Waits &waits = result.threads[thread];
        const std::uint64_t so_far = result.under_way[thread] == 0 ? 0 : result.under_way[thread] - 1;
        const bool unfinished = waits.attempts == 0 || so_far > waits.largest;
        const std::uint64_t shown = std::max(waits.largest, so_far);
        const std::string text = (unfinished ? "at least " : "") + std::to_string(shown) +
                                 (waits.attempts == 0 ? ", never entered"
                                  : unfinished        ? ", under way"
                                                      : "");
        rows += std::string(unfinished ? "<tr class=hatched>" : "<tr>") + "<th scope=row>" + std::to_string(thread) + "<td>" + std::to_string(waits.attempts) +
                "<td>" + (waits.attempts == 0 ? "-" : decimal(waits.total, waits.attempts, 2)) + "<td class=\"left fill\">" + number_bar(text, shown, largest) +
                "</td></tr>\n";
    }
    const std::string head = "<caption>Waits of each thread</caption><thead><tr><th scope=col>thread<th scope=col>entries<th scope=col>mean wait"
                             "<th scope=col class=left>largest wait</thead>";
    const std::string bars = "<table class=\"wide\">" + head + "<tbody>\n" + rows + "</tbody></table>\n";
    const bool few = result.threads.size() <= 40;
    const std::string shown = few ? bars : folded("Of all " + std::to_string(result.threads.size()) + " threads", bars, false);
    return section("Waits",
                   "How many entries of others an attempt waited for. Means cover only attempts that ended; a hatched thread never entered, or its attempt "
                   "under way has waited longer than all that it finished.",
                   shown + folded("The waits as a table, the means as exact fractions",
                                  scrolled(waits_table(tree, result), "Waits of each thread, in entries of others"), false));
}

std::string tenures_section(const hmcs::Tree &tree, const Measured &measured) {
    std::string rows;
    for (const Domain &domain : domains_in_order(tree)) {
        if (domain.number == 0) {
            continue; // the root has no tenures
        }
        const std::uint64_t threshold = tree.words().thresholds[domain.number];
        const std::uint64_t longest = measured.state.longest[domain.number];
        rows += "<tr><th scope=row class=left>" + std::string(2 * (domain.level - 2), ' ') + std::to_string(domain.number) + "<td class=\"left fill\">" +
                number_bar(std::to_string(longest) + " of " + std::to_string(threshold), longest, threshold) + "</td></tr>\n";
    }
    const std::string head = "<caption>Longest tenure of each domain</caption><thead><tr><th scope=col class=left>domain<th scope=col class=left>longest "
                             "tenure, of the threshold</thead>";
    return section("Tenures", "The most members of a domain that held the lock one after another, out of its threshold.",
                   "<table class=\"wide\">" + head + "<tbody>\n" + rows + "</tbody></table>\n" +
                       folded("The tenures as a table", scrolled(tenures_table(tree, measured), "Entries and tenures of each domain"), false));
}

// The first sentences of the page: how many entries, and which threads are missing.
std::string first_words(const Measured &measured) {
    const Missing missing = measured.missing();
    const Totals &c = measured.counts;
    const std::string split = std::to_string(c.entries) + " entries in " + std::to_string(c.steps) + " turns; " + percent(c.root, c.entries) +
                              " of the entries went through the root.";
    if (missing.comparable()) {
        return split + " Every thread entered, at least " + std::to_string(missing.fewest_entries) + " times; the largest wait was " +
               std::to_string(missing.largest_finished) + " entries of others.";
    }
    return split + " The waits cannot be compared with those of another run: " + missing.why_not() + ".";
}

// The turn by turn part begins shortly before the first entry unless --from says otherwise.
std::size_t first_shown(const Words &words, const Recording &recording) {
    if (words.has("--from")) {
        return number("--from", words.value("--from", ""), UINT32_MAX);
    }
    constexpr std::size_t ahead = 20;
    const std::size_t entry = recording.entries.empty() ? 0 : recording.entries.front().turn;
    return entry > ahead ? entry - ahead : 0;
}

std::string page(const Words &words) {
    const std::string path = words.value("-o", "");
    if (path.empty()) {
        fail("page: -o OUT.html is required: the page to write");
    }
    const Input input = read_run(words);
    const std::size_t count = number("--count", words.value("--count", "200"), UINT32_MAX);
    if (input.schedule.empty()) {
        fail(words.others()[0] + ": its schedule has no turn, so there is nothing to show");
    }
    const Measured measured = measure(input.tree, input.schedule);
    if (measured.refusal.refused()) {
        refuse(words.others()[0], measured.refusal);
    }
    const Recording recording = record(input.tree, input.schedule);
    const std::string name =
        words.has("--schedule") ? as_utf8(words.value("--schedule", "")) : as_utf8(std::filesystem::path(words.others()[0]).filename().string());
    const std::string more = std::to_string(input.tree.words().threads) + " threads, " + std::to_string(input.tree.words().domains) + " domains, " +
                             std::to_string(input.schedule.size()) + " turns from a fresh lock. A turn lets one thread take one step; turns are not time.";
    const std::string html =
        page_of(name, first_words(measured), more,
                tree_section(input.tree) + counts_section(measured.counts) + timeline_section(input.tree, recording, first_shown(words, recording), count) +
                    entries_section(recording) + waits_section(input.tree, measured) + tenures_section(input.tree, measured));
    return write_bytes(path, html, words.others());
}

} // namespace

Command page_command() {
    return {"page",
            "writes a page about a lock file's run",
            "usage: hmcs page FILE -o OUT.html [--from K] [--count N]\n"
            "       hmcs page TREE --schedule S -o OUT.html [--ticket] ..\n"
            "Writes one self-contained page about a lock file's run: the tree, how the entries split, a timeline\n"
            "with one lane per thread, grouped by home and coloured by what the thread does, the entries with\n"
            "their kinds, and the waits. It needs no script and loads nothing. If there are more turns than the\n"
            "page has columns, several turns share a column, and some turns are also shown one by one.\n"
            "\n"
            "  -o OUT.html  the page to write\n"
            "  --from K     the first turn to show one by one (default: shortly before the first entry)\n"
            "  --count N    how many turns to show one by one (default: 200)\n" +
                std::string(run_help) +
                "\n"
                "  hmcs page two-sockets.lock -o two-sockets.html\n",
            with_run_options({{"-o", true}, {"--from", true}, {"--count", true}}),
            1,
            1,
            page};
}

} // namespace tool
