// One self-contained page: no script, no external font or picture, light or dark as the reader prefers.
#ifndef HMCS_HTML_HPP
#define HMCS_HTML_HPP

#include "measured.hpp"
#include "table.hpp"

namespace tool {

// The command line, for the footer of its pages.
void remember_command(const std::vector<std::string> &words);
// A page: its title, the first sentences, which give its result, further information, and the rest as HTML.
std::string page_of(const std::string &title, const std::string &first, const std::string &more, const std::string &body);
std::string section(const std::string &title, const std::string &words, const std::string &body);
// A part that can be opened, to keep a page short.
std::string folded(const std::string &title, const std::string &body, bool open);

// A colour of the style sheet and its meaning.
struct Shade {
    std::string name; // of a class of the style sheet
    std::string text;
};

std::string legend(const std::vector<Shade> &shades);

// How the entries split, in the order of the legend of kinds.
std::vector<Shade> kind_shades();
std::string share_bar(const Totals &counts);
// A bar whose length is the number's share of the largest one, with the number next to it.
std::string number_bar(const std::string &text, std::uint64_t number, std::uint64_t largest);

} // namespace tool

#endif
