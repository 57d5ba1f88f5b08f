// The words of a command line: options and their values, numbers, and how the command reports errors.
#include "tool.hpp"

#include <charconv>
#include <cstdio>

namespace tool {

void fail(const std::string &said) { throw Stop{failed, said + "\n"}; }

void refuse(const std::string &where, const hmcs::Refusal &refusal) {
    throw Stop{tool::refused, where + ": refused by " + std::to_string(refusal.number) + " at " + std::to_string(refusal.place) + ": " + refusal.text() + "\n"};
}

void warn(const std::string &said) { std::fputs(("hmcs: " + said + "\n").c_str(), stderr); }

std::vector<Option> with_table_options(std::vector<Option> options) {
    options.push_back({"--csv", false});
    options.push_back({"--json", false});
    return options;
}

std::string printed(const Words &words, const Table &table) {
    if (words.has("--csv") && words.has("--json")) {
        fail("give --csv or --json, not both");
    }
    return words.has("--csv") ? table.csv() : words.has("--json") ? table.json() : table.text();
}

namespace {

// An option begins with a dash; a single dash is a file, and a dash before a digit a negative number.
bool is_option(const std::string &word) { return word.size() > 1 && word[0] == '-' && word[1] != '.' && (word[1] < '0' || word[1] > '9'); }

} // namespace

Words::Words(const std::vector<std::string> &words, const std::vector<Option> &known) {
    for (std::size_t k = 0; k < words.size(); ++k) {
        const std::string &word = words[k];
        if (word == "--") {
            others_.insert(others_.end(), words.begin() + static_cast<std::ptrdiff_t>(k) + 1, words.end());
            break;
        }
        if (word == "--help" || word == "-h") {
            help_ = true;
            break;
        }
        if (!is_option(word)) {
            others_.push_back(word);
            continue;
        }
        const auto option = std::find_if(known.begin(), known.end(), [&](const Option &o) { return o.name == word; });
        if (option == known.end()) {
            fail("unknown option " + word + "; see --help");
        }
        if (option->has_value && k + 1 == words.size()) {
            fail(word + " needs a value; see --help");
        }
        options_.emplace_back(word, option->has_value ? words[++k] : "");
        if (option->has_value && options_.back().second.empty()) {
            fail(word + " needs a value that is not empty");
        }
    }
}

std::vector<std::string> Words::values(const std::string &name) const {
    std::vector<std::string> found;
    for (const auto &[option, value] : options_) {
        if (option == name) {
            found.push_back(value);
        }
    }
    return found;
}

std::vector<std::pair<std::string, std::string>> Words::given(const std::vector<std::string> &names) const {
    std::vector<std::pair<std::string, std::string>> found;
    for (const auto &option : options_) {
        if (std::find(names.begin(), names.end(), option.first) != names.end()) {
            found.push_back(option);
        }
    }
    return found;
}

std::string Words::value(const std::string &name, const std::string &otherwise) const {
    const std::vector<std::string> found = values(name);
    if (found.size() > 1) {
        fail(name + " is given twice");
    }
    return found.empty() ? otherwise : found.front();
}

std::uint64_t number(const std::string &name, const std::string &word, std::uint64_t largest) {
    std::uint64_t value = 0;
    const auto [end, error] = std::from_chars(word.data(), word.data() + word.size(), value);
    if (word.empty() || end != word.data() + word.size() || error == std::errc::invalid_argument) {
        fail(name + " must be a number, not \"" + word + "\"");
    }
    if (error != std::errc() || value > largest) {
        fail(name + " must be at most " + std::to_string(largest) + ", not " + word);
    }
    return value;
}

std::vector<std::string> split(const std::string &text, char at) {
    std::vector<std::string> parts;
    std::size_t from = 0;
    for (std::size_t to = text.find(at); to != std::string::npos; to = text.find(at, from)) {
        parts.push_back(text.substr(from, to - from));
        from = to + 1;
    }
    parts.push_back(text.substr(from));
    return parts;
}

} // namespace tool
