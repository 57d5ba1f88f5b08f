#include "html.hpp"

#include <ctime>

namespace tool {

namespace {

// Colours that people with any common kind of colour blindness can tell apart, by lightness too. Each colour has one meaning on a page.
const char *style = R"(
:root { color-scheme: light dark; --paper: #fff; --ink: #1c2330; --soft: #5b6577; --line: #d8dce3; --hatch: #c3c9d4; --idle: #e4e6ea; --rising: #cdb2e6;
  --waiting: #f0c566; --inside: #10243e; --releasing: #8c6b46; --root: #c44601; --crossed: #1b9e77; --passed: #4a7fc1; --bar: #6d7b93; }
@media (prefers-color-scheme: dark) { :root { --paper: #16181d; --ink: #e6e9ef; --soft: #a2abba; --line: #353a44; --hatch: #4a505c; --idle: #30343b;
  --rising: #7d5fa0; --waiting: #a97b1e; --inside: #fff; --releasing: #c9a57b; --root: #e2561b; --crossed: #3fc398; --passed: #4f8fd8; --bar: #8592a8; } }
body { margin: 0 auto; max-width: 75rem; padding: 1.5rem 1rem 4rem; background: var(--paper); color: var(--ink); font: 15px/1.5 system-ui, sans-serif; }
h1 { font-size: 1.5rem; margin: 0; overflow-wrap: anywhere; } h2 { font-size: 1.1rem; margin: 2.2rem 0 .3rem; }
p { margin: .3rem 0 .8rem; max-width: 46rem; color: var(--soft); overflow-wrap: anywhere; } code { overflow-wrap: anywhere; }
p.first { color: var(--ink); font-size: 1.05rem; } footer { margin-top: 3rem; border-top: 1px solid var(--line); font-size: 13px; }
table { border-collapse: collapse; font-variant-numeric: tabular-nums; } th { font-weight: 600; color: var(--soft); text-align: right; vertical-align: bottom; }
caption { text-align: left; color: var(--soft); font-size: 13px; padding-bottom: .2rem; }
td { text-align: right; white-space: pre; } td, tbody th { border-top: 1px solid var(--line); } th, td { padding: .18rem .9rem .18rem 0; } .left { text-align: left; }
.wide { width: 100%; } .wide .fill { width: 70%; padding-right: 0; } .wide .half { width: 42%; }
.scroll { overflow-x: auto; background: linear-gradient(90deg, var(--paper) 30%, transparent) 0 0 / 2.5rem 100% no-repeat local,
  linear-gradient(270deg, var(--paper) 30%, transparent) 100% 0 / 2.5rem 100% no-repeat local,
  linear-gradient(90deg, #7788, transparent) 0 0 / .8rem 100% no-repeat scroll, linear-gradient(270deg, #7788, transparent) 100% 0 / .8rem 100% no-repeat scroll; }
details { margin: .5rem 0; } summary { cursor: pointer; }
pre { font: 13px/1.45 ui-monospace, monospace; columns: 20rem; column-rule: 1px solid var(--line); margin: .5rem 0; white-space: pre-wrap; }
.legend { display: flex; flex-wrap: wrap; gap: .3rem 1.2rem; margin: .5rem 0; padding: 0; list-style: none; }
.legend i { display: inline-block; width: .9rem; height: .9rem; border-radius: 2px; margin-right: .4rem; vertical-align: -.1rem; }
.lanes { display: grid; grid-template-columns: max-content minmax(0, 1fr); gap: 0 .7rem; font-size: 12px; line-height: 1; }
.lanes svg { width: 100%; display: block; } .lanes h3 { grid-column: 1 / 3; font-size: 12px; font-weight: 600; color: var(--soft); margin: .6rem 0 .2rem; }
.names { text-align: right; color: var(--soft); max-width: 12rem; } .names div { display: flex; align-items: center; justify-content: flex-end; }
.turns { grid-column: 2; display: flex; justify-content: space-between; color: var(--soft); margin-top: .4rem; }
.shares { display: flex; height: 1.1rem; border-radius: 3px; overflow: hidden; min-width: 8rem; background: var(--idle); } .shares i { display: block; }
.number { display: flex; align-items: center; gap: .5rem; min-width: 8rem; } .number i { flex: none; display: block; height: .8rem; border-radius: 2px; background: var(--bar); }
.why { color: var(--soft); font-size: 13px; white-space: normal; }
.hatched td, .hatched th, td.hatched { background: repeating-linear-gradient(135deg, transparent 0 6px, var(--hatch) 6px 8px); } .hatched .number i { opacity: .35; }
.chart { max-width: 48rem; width: 100%; } .chart text { fill: var(--soft); font-size: 12px; } .axis { fill: none; stroke: var(--line); stroke-width: 1.5; }
.limit { stroke: var(--root); stroke-dasharray: 5 4; } .dot { fill: none; stroke: var(--bar); stroke-width: 2; } .chosen { fill: var(--passed); } .beyond { fill: none; stroke: var(--root); stroke-width: 2; }
.grid th { text-align: center; vertical-align: middle; } .grid caption { max-width: 40rem; } .grid td { text-align: center; padding: .4rem .7rem; border: 1px solid var(--paper); } .grid b { font-size: 1.1rem; } .grid span { display: block; font-size: 12px; }
.grid td { color: #10243e; } .grid td.hatched, .grid td.hatched span { color: var(--ink); }
.idle { background: var(--idle); stroke: var(--idle); } .rising { background: var(--rising); stroke: var(--rising); }
.waiting { background: var(--waiting); stroke: var(--waiting); } .inside { background: var(--inside); stroke: var(--inside); }
.releasing { background: var(--releasing); stroke: var(--releasing); } .root { background: var(--root); stroke: var(--root); }
.crossed { background: var(--crossed); stroke: var(--crossed); } .passed { background: var(--passed); stroke: var(--passed); }
@media (max-width: 40rem) { .shares, .number { min-width: 4rem; } th, td { padding-right: .6rem; } }
)";

std::string commanded; // the words of the command, for the foot of a page

// A word as a shell reads it.
std::string quoted(const std::string &word) {
    const bool plain = !word.empty() && word.find_first_not_of("abcdefghijklmnopqrstuvwxyzABCDEFGHIJKLMNOPQRSTUVWXYZ0123456789-_./:,=+@%") == std::string::npos;
    if (plain) {
        return word;
    }
    std::string text = "'";
    for (const char byte : word) {
        text += byte == '\'' ? std::string("'\\''") : std::string(1, byte);
    }
    return text + "'";
}

std::string footer() {
    const std::time_t now = std::time(nullptr);
    char date[16] = "";
    std::tm parts{};
    if (gmtime_r(&now, &parts) != nullptr) {
        std::strftime(date, sizeof date, "%Y-%m-%d", &parts);
    }
    return "<footer><p>hmcs " HMCS_VERSION ", " + std::string(date) + ". Made by: <code>" + escaped(as_utf8(commanded)) + "</code></p></footer>\n";
}

} // namespace

void remember_command(const std::vector<std::string> &words) {
    commanded = "hmcs";
    for (const std::string &word : words) {
        commanded += " " + quoted(word);
    }
}

std::string page_of(const std::string &title, const std::string &first, const std::string &more, const std::string &body) {
    return "<!doctype html>\n<html lang=\"en\">\n<meta charset=\"utf-8\">\n<meta name=\"viewport\" content=\"width=device-width, initial-scale=1\">\n<title>" +
           escaped(title) + "</title>\n<style>" + style + "</style>\n<main>\n<h1>" + escaped(title) + "</h1>\n<p class=\"first\">" + escaped(first) +
           "</p>\n<p>" + escaped(more) + "</p>\n" + body + "</main>\n" + footer() + "</html>\n";
}

std::string section(const std::string &title, const std::string &words, const std::string &body) {
    return "<h2>" + escaped(title) + "</h2>\n" + (words.empty() ? "" : "<p>" + escaped(words) + "</p>\n") + body;
}

std::string folded(const std::string &title, const std::string &body, bool open) {
    return std::string("<details") + (open ? " open" : "") + "><summary>" + escaped(title) + "</summary>\n" + body + "</details>\n";
}

std::string legend(const std::vector<Shade> &shades) {
    std::string items;
    for (const Shade &shade : shades) {
        items += "<li><i class=\"" + shade.name + "\"></i>" + escaped(shade.text) + "</li>";
    }
    return "<ul class=\"legend\">" + items + "</ul>\n";
}

std::vector<Shade> kind_shades() {
    return {{"root", "root: through the root"}, {"crossed", "crossed: passed on between home and root"}, {"passed", "passed: passed on at home"}};
}

std::string share_bar(const Totals &counts) {
    std::string bar, label;
    const std::pair<const char *, std::uint64_t> parts[] = {{"root", counts.root}, {"crossed", counts.crossed}, {"passed", counts.passed}};
    for (const auto &[name, part] : parts) {
        bar += std::string("<i class=\"") + name + "\" style=\"width:" + decimal(100 * part, counts.entries, 2) + "%\"></i>";
        label += (label.empty() ? "" : ", ") + std::string(name) + " " + percent(part, counts.entries);
    }
    return "<div class=\"shares\" role=\"img\" aria-label=\"" + label + "\">" + bar + "</div>";
}

std::string number_bar(const std::string &text, std::uint64_t number, std::uint64_t largest) {
    return "<div class=\"number\"><i style=\"width:" + decimal(65 * number, largest, 2) + "%\"></i>" + escaped(text) + "</div>";
}

} // namespace tool
