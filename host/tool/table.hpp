// Tables: aligned for people, comma-separated or JSON for programs, or as HTML.
#ifndef HMCS_TABLE_HPP
#define HMCS_TABLE_HPP

#include "hmcs.hpp"

#include <string>
#include <vector>

namespace tool {

enum class Side { left, right };

// A cell for programs: a number, a text, a truth value, or nothing.
struct Value {
    enum class Kind { nothing, number, text, truth };

    Kind kind = Kind::nothing;
    std::string text;

    Value() = default;
    Value(std::uint64_t number) : kind(Kind::number), text(std::to_string(number)) {}
    static Value of_text(const std::string &text) { return Value(Kind::text, text); }
    static Value of_decimal(const std::string &number) { return Value(Kind::number, number); }
    static Value of_truth(bool truth) { return Value(Kind::truth, truth ? "true" : "false"); }

  private:
    Value(Kind k, const std::string &t) : kind(k), text(t) {}
};

class Table {
  public:
    void column(const std::string &name, Side side = Side::right);
    void mean_column(const std::string &name); // an exact fraction and a decimal; three columns for a program

    void row() { rows_.emplace_back(); }
    void mark() { rows_.back().marked = true; } // HTML hatches the row
    void cell(const std::string &text) { cell(text, Value::of_text(text)); }
    void cell(std::uint64_t number) { cell(std::to_string(number), Value(number)); }
    void cell(const std::string &text, const Value &value) { rows_.back().cells.push_back({text, {value}}); }
    void mean(std::uint64_t numerator, std::uint64_t denominator);
    // A mean that is hidden from people; the text is shown instead.
    void mean(std::uint64_t numerator, std::uint64_t denominator, const std::string &text);

    std::string text() const;
    std::string csv() const;
    std::string json() const; // a list of objects
    std::string html(const std::string &caption) const;

  private:
    struct Cell {
        std::string text;
        std::vector<Value> values;
    };
    struct Row {
        std::vector<Cell> cells;
        bool marked = false;
    };
    struct Column {
        std::string name;
        std::vector<std::string> keys; // as many as its cells have values
        Side side;
    };

    std::vector<Column> columns_;
    std::vector<Row> rows_;
};

// A fraction with that many digits after the point; 0 if the denominator is 0.
std::string decimal(std::uint64_t numerator, std::uint64_t denominator, int digits);
// A share in percent, without the sign.
std::string share(std::uint64_t part, std::uint64_t whole);
// A share in percent, for people.
std::string percent(std::uint64_t part, std::uint64_t whole);
// A text in which each byte that is not part of UTF-8 is replaced by U+FFFD.
std::string as_utf8(const std::string &text);
// A text escaped for HTML.
std::string escaped(const std::string &text);

} // namespace tool

#endif
