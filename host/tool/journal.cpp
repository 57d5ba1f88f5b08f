// `journal`: checks a journal of a plugin's steps, and says where and why it is wrong.
#include "journals.hpp"
#include "places.hpp"
#include "table.hpp"
#include "tool.hpp"

namespace tool {

namespace {

constexpr std::size_t shown_before = 10; // steps before a wrong entry

// One line for each of the entries, from the lock before the first of them.
Table steps_table(hmcs::Lock &lock, const std::vector<JournalEntry> &entries, std::size_t from, std::size_t to) {
    Table table;
    table.column("entry");
    table.column("byte");
    table.column("thread");
    table.column("domain");
    table.column("row", Side::left);
    table.column("kind", Side::left);
    for (std::size_t k = from; k < to; ++k) {
        const JournalEntry &entry = entries[k];
        const std::uint8_t row = lock.state().places.rows[entry.thread];
        const hmcs::StepResult step = lock.step(entry.thread);
        table.row();
        table.cell(k);
        table.cell(entry.byte);
        table.cell(entry.thread);
        table.cell(step.domain);
        table.cell(hmcs_row_name(row));
        table.cell(hmcs::text(step.kind));
    }
    return table;
}

// What is wrong with the first wrong entry.
std::string fault(const hmcs::Lock &lock, const Journal &journal, std::size_t at, const std::string &bytes) {
    if (at == journal.entries.size()) {
        const unsigned bits = static_cast<std::uint8_t>(bytes[journal.end]);
        return bits > (HMCS_JOURNAL_THREAD | HMCS_JOURNAL_KIND) ? "its bit map is " + std::to_string(bits) + ", expected at most 3"
                                                                : "the journal ends inside it";
    }
    const JournalEntry &entry = journal.entries[at];
    const std::string thread = "thread " + std::to_string(entry.thread), threads = std::to_string(lock.tree().threads);
    if (entry.thread >= lock.tree().threads) {
        return "it names " + thread + ", and the tree has " + threads + " threads, numbered from 0";
    }
    hmcs::Lock next = lock;
    const hmcs::StepResult step = next.step(entry.thread);
    return thread + " " + standing(lock.state(), entry.thread) + ", where it " + hmcs_row_text(lock.state().places.rows[entry.thread]) + "; the step is `" +
           hmcs::text(step.kind) + "`, and the journal says " +
           (entry.kind > HMCS_LEAVING ? "kind " + std::to_string(entry.kind) + ", which no step has" : std::string("`") + hmcs_kind_text(entry.kind) + "`");
}

[[noreturn]] void explain(const std::string &path, const Input &input, const std::string &bytes, const hmcs::Refusal &refusal) {
    const Journal journal = journal_of(bytes);
    std::size_t at = 0;
    while (at < journal.entries.size() && journal.entries[at].byte < refusal.place) {
        ++at;
    }
    const std::vector<std::uint16_t> threads = journal.threads();
    const std::size_t from = at - std::min(at, shown_before);
    hmcs::Lock lock = lock_after(Input{input.tree, {threads.begin(), threads.begin() + static_cast<std::ptrdiff_t>(from)}, false});
    const std::string before = steps_table(lock, journal.entries, from, at).text();
    std::string said = path + ": refused by " + std::to_string(refusal.number) + " at byte " + std::to_string(refusal.place) + ", entry " + std::to_string(at) +
                       ": " + refusal.text() + "\n" + fault(lock, journal, at, bytes) + "\n";
    if (at > from) {
        said += at - from == 1 ? "the step before it:\n" : "the " + std::to_string(at - from) + " steps before it:\n";
        said += before;
    }
    throw Stop{refused, said};
}

// "thread 3 waits for thread 0, which is in Linger of domain 1 and can move"
std::string chain_line(const hmcs::Lock &lock, std::uint32_t thread) {
    const std::vector<std::uint16_t> chain = lock.chain(thread).threads;
    std::string line = "thread " + std::to_string(thread);
    for (std::size_t k = 1; k < chain.size(); ++k) {
        line += (k == 1 ? " waits for thread " : ", which waits for thread ") + std::to_string(chain[k]);
    }
    return line + (chain.size() > 1 ? ", which " : " ") + standing(lock.state(), chain.back()) + " and can move\n";
}

// The threads that are neither idle nor inside after the last entry.
std::string on_their_way(const hmcs::Lock &lock) {
    std::string lines;
    std::size_t count = 0;
    for (std::uint32_t thread = 0; thread < lock.tree().threads; ++thread) {
        const std::uint8_t row = lock.state().places.rows[thread];
        if (row != HMCS_ROW_IDLE && row != HMCS_ROW_INSIDE) {
            lines += chain_line(lock, thread);
            ++count;
        }
    }
    if (count == 0) {
        return "";
    }
    return "At the end " + std::to_string(count) + (count == 1 ? " thread is" : " threads are") +
           " neither idle nor inside, as in a recording that was cut short. If the lock hung there,\na wakeup was lost: the last thread of each line could "
           "have moved.\n" +
           lines;
}

Input tree_of(const Words &words) {
    if (words.has("--from-lock")) {
        if (words.others().size() != 1 || words.has("--ticket")) {
            fail("journal: --from-lock FILE gives the tree and its root, so give only the journal with it");
        }
        const std::string path = words.value("--from-lock", "");
        Input input = read_tree(path, false);
        if (!input.from_file) {
            fail(path + ": expected a lock file");
        }
        return input;
    }
    if (words.others().size() != 2) {
        fail("journal: expected TREE and FILE, or FILE and --from-lock FILE");
    }
    return read_tree(words.others()[0], words.has("--ticket"));
}

std::string journal(const Words &words) {
    const Input input = tree_of(words);
    const std::string &path = words.others().back();
    const std::string bytes = read_bytes(path, SIZE_MAX);
    const hmcs::Refusal refusal = hmcs::check_journal(input.tree, reinterpret_cast<const std::uint8_t *>(bytes.data()), bytes.size());
    if (refusal.refused()) {
        explain(path, input, bytes, refusal);
    }
    const std::vector<std::uint16_t> threads = journal_of(bytes).threads();
    return path + ": accepted, " + std::to_string(threads.size()) + " entries in " + std::to_string(bytes.size()) + " bytes\n" +
           on_their_way(lock_after(Input{input.tree, threads, false}));
}

} // namespace

Command journal_command() {
    return {"journal",
            "checks a journal of a plugin's steps",
            "usage: hmcs journal TREE FILE [--ticket]\n"
            "       hmcs journal FILE --from-lock LOCKFILE\n"
            "Compares a journal, one journal entry for each step, with the steps from a fresh lock of the tree.\n"
            "TREE is as for `hmcs tree`. A wrong journal is refused at the first byte of its first wrong entry;\n"
            "the command shows the thread's step there, what the journal says, and the ten steps before. For an\n"
            "accepted journal it says which threads were still on their way at the end, and why each of them\n"
            "waits. Entries are counted from 0.\n"
            "\n"
            "  --ticket          the root of a tree given as text is a ticket lock\n"
            "  --from-lock FILE  uses the tree of a lock file\n"
            "\n"
            "  hmcs journal '(2(#2) 16(#1))' printed-example.journal\n",
            {{"--ticket", false}, {"--from-lock", true}},
            1,
            2,
            journal};
}

} // namespace tool
