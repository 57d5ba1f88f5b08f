#include "trees.hpp"

namespace tool {

namespace {

void add_in_order(const hmcs_tree &words, std::uint32_t domain, std::uint32_t level, std::vector<Domain> &found) {
    found.push_back({domain, level});
    for (std::uint32_t child = domain + 1; child < words.domains; ++child) {
        if (words.parents[child] == domain) {
            add_in_order(words, child, level + 1, found);
        }
    }
}

// A domain in parentheses: its threads' count, or its children with their thresholds.
std::string bracketed(const hmcs::Tree &tree, std::uint32_t domain) {
    const hmcs_tree &words = tree.words();
    std::string inside;
    for (std::uint32_t child = domain + 1; child < words.domains; ++child) {
        if (words.parents[child] == domain) {
            inside += (inside.empty() ? "" : " ") + std::to_string(words.thresholds[child]) + bracketed(tree, child);
        }
    }
    return "(" + (inside.empty() ? "#" + std::to_string(threads_at_home(tree, domain).size()) : inside) + ")";
}

bool same_words(const hmcs_tree &a, const hmcs_tree &b) {
    const bool same_counts = a.domains == b.domains && a.threads == b.threads && (a.ticket_root != 0) == (b.ticket_root != 0);
    return same_counts && std::equal(a.parents + 1, a.parents + a.domains, b.parents + 1) &&
           std::equal(a.thresholds + 1, a.thresholds + a.domains, b.thresholds + 1) && std::equal(a.homes, a.homes + a.threads, b.homes);
}

} // namespace

std::vector<Domain> domains_in_order(const hmcs::Tree &tree) {
    std::vector<Domain> found;
    add_in_order(tree.words(), 0, 1, found);
    return found;
}

std::vector<std::uint32_t> threads_at_home(const hmcs::Tree &tree, std::uint32_t domain) {
    std::vector<std::uint32_t> found;
    for (std::uint32_t thread = 0; thread < tree.words().threads; ++thread) {
        if (tree.words().homes[thread] == domain) {
            found.push_back(thread);
        }
    }
    return found;
}

std::uint32_t members_of(const hmcs::Tree &tree, std::uint32_t domain) {
    std::uint32_t children = 0;
    for (std::uint32_t child = domain + 1; child < tree.words().domains; ++child) {
        children += tree.words().parents[child] == domain ? 1 : 0;
    }
    return children != 0 ? children : static_cast<std::uint32_t>(threads_at_home(tree, domain).size());
}

std::string ranges(const std::vector<std::uint32_t> &numbers) {
    std::string text;
    for (std::size_t from = 0, to = 0; from < numbers.size(); from = to + 1) {
        to = from;
        while (to + 1 < numbers.size() && numbers[to + 1] == numbers[to] + 1) {
            ++to;
        }
        text += (text.empty() ? "" : " ") + std::to_string(numbers[from]) + (to > from ? "-" + std::to_string(numbers[to]) : "");
    }
    return text;
}

std::optional<std::string> text_of(const hmcs::Tree &tree) {
    const std::string text = bracketed(tree, 0);
    const hmcs::TextResult read = hmcs::read_tree(text);
    hmcs_tree words = read.tree.words();
    words.ticket_root = tree.words().ticket_root; // which no text says
    return read.accepted() && same_words(words, tree.words()) ? std::optional<std::string>(text) : std::nullopt;
}

std::string capped(std::uint64_t number) { return number == UINT64_MAX ? ">=2^64-1" : std::to_string(number); }

Table tree_table(const hmcs::Tree &tree) {
    Table table;
    table.column("domain", Side::left);
    table.column("level");
    table.column("threshold");
    table.column("allowance");
    table.column("longest possible wait");
    table.column("threads", Side::left);
    const std::vector<std::uint64_t> allowances = hmcs::allowances(tree).domains;
    const std::vector<std::uint64_t> waits = hmcs::wait_bounds(tree).threads;
    for (const Domain &domain : domains_in_order(tree)) {
        const bool is_root = domain.number == 0;
        const std::string root_name = tree.root() == hmcs::RootKind::ticket ? "0, the root, a ticket lock" : "0, the root, a queue";
        table.row();
        table.cell(std::string(2 * (domain.level - 1), ' ') + (is_root ? root_name : std::to_string(domain.number)), Value(domain.number));
        table.cell(domain.level);
        if (is_root) {
            table.cell("-", Value());
            table.cell("-", Value());
        } else {
            table.cell(tree.words().thresholds[domain.number]);
            table.cell(capped(allowances.at(domain.number)), Value(allowances.at(domain.number)));
        }
        const std::vector<std::uint32_t> at_home = threads_at_home(tree, domain.number);
        if (at_home.empty()) {
            table.cell("", Value());
        } else {
            const std::uint64_t wait = waits.at(at_home.front()); // the same for all threads of a home
            table.cell(capped(wait), Value(wait));
        }
        table.cell(ranges(at_home));
    }
    return table;
}

} // namespace tool
