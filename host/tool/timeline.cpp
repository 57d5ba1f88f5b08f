#include "timeline.hpp"

#include "html.hpp"
#include "trees.hpp"

#include <array>

namespace tool {

namespace {

constexpr std::size_t least_named_height = 14; // pixels that a name takes

const char *const doing_classes[doings] = {"idle", "rising", "waiting", "inside", "releasing"};

// Columns of about a pixel, and fewer for many threads, to keep the page small.
std::size_t columns_of(const hmcs::Tree &tree, std::size_t turns) {
    return std::min(turns, std::min<std::size_t>(1200, std::max<std::size_t>(300, 100000 / tree.words().threads)));
}

// Some turns of a run, and in how many columns.
struct Window {
    std::size_t from, to, columns;

    std::size_t start_of(std::size_t column) const { return from + column * (to - from) / columns; }
    std::size_t column_of(std::size_t turn) const {
        std::size_t column = (turn - from) * columns / (to - from);
        while (column + 1 < columns && start_of(column + 1) <= turn) {
            ++column;
        }
        return column;
    }
};

// What a thread did in each column: inside if it was inside at all, so every entry is visible, else what it did longest.
std::vector<Doing> gathered(const std::vector<Change> &changes, const Window &window) {
    std::vector<Doing> shown;
    std::size_t next = 0;
    Doing now = idle;
    for (std::size_t column = 0; column < window.columns; ++column) {
        std::array<std::size_t, doings> turns{};
        const std::size_t end = window.start_of(column + 1);
        for (std::size_t at = window.start_of(column); at < end;) {
            while (next < changes.size() && changes[next].turn <= at) {
                now = changes[next++].doing;
            }
            const std::size_t until = next < changes.size() ? std::min(end, changes[next].turn) : end;
            turns[now] += until - at;
            at = until;
        }
        const auto longest = std::max_element(turns.begin(), turns.end());
        shown.push_back(turns[inside] > 0 ? inside : static_cast<Doing>(longest - turns.begin()));
    }
    return shown;
}

// A path of horizontal strokes on the lanes of one picture.
class Strokes {
  public:
    void add(std::size_t lane, std::size_t column, std::size_t length) {
        if (lane != lane_ || path_.empty()) {
            path_ += "M" + std::to_string(column) + " " + std::to_string(lane) + ".5";
            lane_ = lane;
        } else {
            path_ += "m" + std::to_string(column - end_) + " 0";
        }
        path_ += "h" + std::to_string(length);
        end_ = column + length;
    }

    std::string path(const std::string &name) const { return path_.empty() ? "" : "<path class=\"" + name + "\" d=\"" + path_ + "\"/>"; }

  private:
    std::string path_;
    std::size_t lane_ = 0, end_ = 0;
};

// Lanes stretched over the width of the page, each this many pixels high.
std::string picture(const std::string &paths, const std::string &title, std::size_t columns, std::size_t count, std::size_t height) {
    return "<svg viewBox=\"0 0 " + std::to_string(columns) + " " + std::to_string(count) + "\" height=\"" + std::to_string(count * height) +
           "\" preserveAspectRatio=\"none\" fill=\"none\" stroke-width=\".82\" role=\"img\" aria-label=\"" + escaped(title) + "\">" + paths + "</svg>";
}

std::string names(const std::vector<std::string> &texts, std::size_t height) {
    std::string shown = "<div class=\"names\">";
    for (const std::string &text : texts) {
        shown += "<div style=\"height:" + std::to_string(height) + "px\">" + escaped(text) + "</div>";
    }
    return shown + "</div>";
}

std::string entry_lanes(const Recording &recording, const Window &window) {
    const hmcs::Kind kinds[] = {hmcs::Kind::root_entry, hmcs::Kind::crossed_entry, hmcs::Kind::passed_entry};
    const std::vector<std::string> texts = {"root", "crossed", "passed"};
    const std::size_t width = std::max<std::size_t>(1, window.columns / 400); // a narrower stroke fades on a small screen
    std::string paths;
    for (std::size_t lane = 0; lane < 3; ++lane) {
        Strokes background, strokes;
        background.add(lane, 0, window.columns);
        std::size_t free = 0; // the first column that has no stroke yet
        for (const Entry &entry : recording.entries) {
            const bool shown = entry.kind == kinds[lane] && entry.turn >= window.from && entry.turn < window.to;
            const std::size_t column = shown ? window.column_of(entry.turn) : 0;
            if (shown && column >= free) {
                free = std::min(column + width, window.columns);
                strokes.add(lane, column, free - column);
            }
        }
        paths += background.path("idle") + strokes.path(texts[lane]);
    }
    return "<h3>entries by kind</h3>" + names(texts, 16) + picture(paths, "entries by kind", window.columns, 3, 16);
}

std::string home_lanes(const std::vector<std::uint32_t> &threads, const std::string &title, const Recording &recording, const Window &window,
                       std::size_t height) {
    std::array<Strokes, doings> strokes;
    std::vector<std::string> texts;
    for (std::size_t lane = 0; lane < threads.size(); ++lane) {
        const std::vector<Doing> shown = gathered(recording.threads[threads[lane]], window);
        strokes[idle].add(lane, 0, window.columns);
        for (std::size_t from = 0, to = 0; from < shown.size(); from = to) {
            while (to < shown.size() && shown[to] == shown[from]) {
                ++to;
            }
            if (shown[from] != idle) {
                strokes[shown[from]].add(lane, from, to - from);
            }
        }
        texts.push_back("thread " + std::to_string(threads[lane]));
    }
    std::string paths;
    for (std::size_t doing = 0; doing < doings; ++doing) {
        paths += strokes[doing].path(doing_classes[doing]);
    }
    const bool has_room = height >= least_named_height; // thin lanes have one name together
    const std::string named = has_room ? names(texts, height) : names({"threads " + ranges(threads)}, std::max(least_named_height, threads.size() * height));
    return "<h3>" + escaped(title) + "</h3>" + named + picture(paths, title, window.columns, threads.size(), height) + "\n";
}

// The way from below the root to a domain: "domain 1 › domain 3, threshold 4".
std::string way_to(const hmcs::Tree &tree, std::uint32_t domain) {
    std::string text = domain == 0 ? "the root" : "domain " + std::to_string(domain) + ", threshold " + std::to_string(tree.words().thresholds[domain]);
    for (std::uint32_t d = domain; d != 0 && tree.words().parents[d] != 0;) {
        d = tree.words().parents[d];
        text = "domain " + std::to_string(d) + " › " + text;
    }
    return text;
}

} // namespace

Recording record(const hmcs::Tree &tree, const std::vector<std::uint16_t> &schedule) {
    hmcs::Lock lock(tree);
    Recording recording;
    recording.turns = schedule.size();
    recording.threads.resize(tree.words().threads);
    for (std::size_t turn = 0; turn < schedule.size(); ++turn) {
        const std::uint16_t thread = schedule[turn];
        const hmcs::Kind kind = lock.step(thread).kind;
        std::vector<Change> &changes = recording.threads[thread];
        const Doing doing = doing_at(lock.state().places.rows[thread]);
        if (doing != (changes.empty() ? idle : changes.back().doing)) {
            changes.push_back({turn, doing});
        }
        if (kind == hmcs::Kind::root_entry || kind == hmcs::Kind::crossed_entry || kind == hmcs::Kind::passed_entry) {
            recording.entries.push_back({turn, thread, kind});
        }
    }
    return recording;
}

bool are_gathered(const hmcs::Tree &tree, std::size_t turns) { return columns_of(tree, turns) < turns; }

std::string lanes(const hmcs::Tree &tree, const Recording &recording, std::size_t from, std::size_t to) {
    const Window window{from, to, columns_of(tree, to - from)};
    const std::uint32_t threads = tree.words().threads;
    const std::size_t height = threads <= 40 ? 16 : threads <= 100 ? 8 : 6;
    std::string shown = entry_lanes(recording, window);
    for (const Domain &domain : domains_in_order(tree)) {
        const std::vector<std::uint32_t> at_home = threads_at_home(tree, domain.number);
        if (!at_home.empty()) {
            shown += home_lanes(at_home, way_to(tree, domain.number), recording, window, height);
        }
    }
    std::string turns;
    for (std::size_t quarter = 0; quarter <= 4; ++quarter) {
        turns += "<span>" + std::string(quarter == 0 ? "turn " : "") + std::to_string(from + quarter * (to - from) / 4) + "</span>";
    }
    return "<div class=\"lanes\">" + shown + "<div class=\"turns\">" + turns + "</div></div>\n";
}

} // namespace tool
