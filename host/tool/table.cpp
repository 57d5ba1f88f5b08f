#include "table.hpp"

#include <cstdio>

namespace tool {

namespace {

std::string csv_of(const std::string &text) {
    if (text.find_first_of(",\"\n") == std::string::npos) {
        return text;
    }
    std::string quoted = "\"";
    for (const char byte : text) {
        quoted += byte == '"' ? std::string("\"\"") : std::string(1, byte);
    }
    return quoted + "\"";
}

std::string json_text(const std::string &text) {
    std::string quoted = "\"";
    for (const char byte : text) {
        if (byte == '"' || byte == '\\') {
            quoted += '\\';
        }
        if (static_cast<unsigned char>(byte) < ' ') {
            char code[8];
            std::snprintf(code, sizeof code, "\\u%04x", static_cast<unsigned>(byte));
            quoted += code;
        } else {
            quoted += byte;
        }
    }
    return quoted + "\"";
}

std::string json_of(const Value &value) {
    switch (value.kind) {
    case Value::Kind::nothing: return "null";
    case Value::Kind::text: return json_text(value.text);
    default: return value.text;
    }
}

} // namespace

void Table::column(const std::string &name, Side side) { columns_.push_back({name, {name}, side}); }

void Table::mean_column(const std::string &name) { columns_.push_back({name, {name + " numerator", name + " denominator", name}, Side::left}); }

void Table::mean(std::uint64_t numerator, std::uint64_t denominator) {
    const std::string fraction = std::to_string(numerator) + "/" + std::to_string(denominator);
    mean(numerator, denominator, denominator == 0 ? "-" : fraction + " = " + decimal(numerator, denominator, 2));
}

void Table::mean(std::uint64_t numerator, std::uint64_t denominator, const std::string &text) {
    Cell cell{text, {Value(), Value(), Value()}};
    if (denominator != 0) {
        cell.values = {Value(numerator), Value(denominator), Value::of_decimal(decimal(numerator, denominator, 2))};
    }
    rows_.back().cells.push_back(cell);
}

std::string Table::text() const {
    std::vector<std::size_t> widths;
    for (std::size_t c = 0; c < columns_.size(); ++c) {
        widths.push_back(columns_[c].name.size());
        for (const Row &row : rows_) {
            widths[c] = std::max(widths[c], row.cells[c].text.size());
        }
    }
    std::string printed;
    const auto line = [&](const auto &text_of) {
        std::string shown;
        for (std::size_t c = 0; c < columns_.size(); ++c) {
            const std::string &text = text_of(c);
            const std::string space(widths[c] - text.size(), ' ');
            shown += (c == 0 ? "" : "  ") + (columns_[c].side == Side::right ? space + text : text + space);
        }
        shown.erase(shown.find_last_not_of(' ') + 1);
        printed += shown + "\n";
    };
    line([&](std::size_t c) -> const std::string & { return columns_[c].name; });
    for (const Row &row : rows_) {
        line([&](std::size_t c) -> const std::string & { return row.cells[c].text; });
    }
    return printed;
}

std::string Table::csv() const {
    std::string printed;
    for (std::size_t c = 0; c < columns_.size(); ++c) {
        for (const std::string &key : columns_[c].keys) {
            printed += (printed.empty() ? "" : ",") + csv_of(key);
        }
    }
    printed += "\n";
    for (const Row &row : rows_) {
        std::string separator;
        for (const Cell &cell : row.cells) {
            for (const Value &value : cell.values) {
                printed += separator + csv_of(value.text);
                separator = ",";
            }
        }
        printed += "\n";
    }
    return printed;
}

std::string Table::json() const {
    std::string printed = "[";
    for (std::size_t r = 0; r < rows_.size(); ++r) {
        printed += r == 0 ? "\n  {" : ",\n  {";
        std::string separator;
        for (std::size_t c = 0; c < columns_.size(); ++c) {
            for (std::size_t k = 0; k < columns_[c].keys.size(); ++k) {
                printed += separator + json_text(columns_[c].keys[k]) + ": " + json_of(rows_[r].cells[c].values[k]);
                separator = ", ";
            }
        }
        printed += "}";
    }
    return printed + (rows_.empty() ? "]\n" : "\n]\n");
}

std::string Table::html(const std::string &caption) const {
    std::string printed = "<table><caption>" + escaped(caption) + "</caption><thead><tr>";
    const auto side_of = [&](std::size_t c) { return columns_[c].side == Side::left ? " class=left" : ""; };
    for (std::size_t c = 0; c < columns_.size(); ++c) {
        printed += std::string("<th scope=col") + side_of(c) + ">" + escaped(columns_[c].name);
    }
    printed += "</thead><tbody>\n";
    for (const Row &row : rows_) {
        printed += row.marked ? "<tr class=hatched>" : "<tr>";
        for (std::size_t c = 0; c < columns_.size(); ++c) {
            printed += std::string("<td") + side_of(c) + ">" + escaped(row.cells[c].text);
        }
        printed += "</td></tr>\n";
    }
    return printed + "</tbody></table>\n";
}

std::string decimal(std::uint64_t numerator, std::uint64_t denominator, int digits) {
    const double value = denominator == 0 ? 0 : static_cast<double>(numerator) / static_cast<double>(denominator);
    char text[64];
    std::snprintf(text, sizeof text, "%.*f", digits, value);
    return text;
}

std::string share(std::uint64_t part, std::uint64_t whole) { return decimal(100 * part, whole, 1); }

std::string percent(std::uint64_t part, std::uint64_t whole) { return share(part, whole) + " %"; }

namespace {

// The number of bytes of the UTF-8 character that begins here; 0 if none does.
std::size_t character_length(const std::string &text, std::size_t at) {
    const auto byte = [&](std::size_t k) { return k < text.size() ? static_cast<unsigned char>(text[k]) : 0u; };
    const unsigned first = byte(at);
    const std::size_t length = first < 0x80 ? 1 : first >= 0xC2 && first < 0xE0 ? 2 : first >= 0xE0 && first < 0xF0 ? 3 : first >= 0xF0 && first < 0xF5 ? 4 : 0;
    for (std::size_t k = 1; k < length; ++k) {
        if ((byte(at + k) & 0xC0) != 0x80) {
            return 0;
        }
    }
    const unsigned second = byte(at + 1);
    const bool overlong = (first == 0xE0 && second < 0xA0) || (first == 0xF0 && second < 0x90);
    const bool too_large = (first == 0xED && second > 0x9F) || (first == 0xF4 && second > 0x8F);
    return overlong || too_large ? 0 : length;
}

} // namespace

std::string as_utf8(const std::string &text) {
    std::string valid;
    for (std::size_t at = 0; at < text.size();) {
        const std::size_t length = character_length(text, at);
        valid += length == 0 ? std::string("\xEF\xBF\xBD") : text.substr(at, length);
        at += std::max<std::size_t>(length, 1);
    }
    return valid;
}

std::string escaped(const std::string &text) {
    std::string shown;
    for (const char byte : text) {
        switch (byte) {
        case '&': shown += "&amp;"; break;
        case '<': shown += "&lt;"; break;
        case '>': shown += "&gt;"; break;
        case '"': shown += "&quot;"; break;
        default: shown += byte;
        }
    }
    return shown;
}

} // namespace tool
