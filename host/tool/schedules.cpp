#include "schedules.hpp"

#include "busy.hpp"
#include "journals.hpp"
#include "random.hpp"
#include "tool.hpp"

#include <charconv>
#include <filesystem>

namespace tool {

const char *const usual_schedule = "busy:65536:1";

const char *const schedule_help = "  busy:COUNT:SEED           a random thread that can move, so no turn is wasted\n"
                                  "  busy:COUNT:SEED:WORK      the same, but after releasing the lock a thread pauses for 0 to 2*WORK turns\n"
                                  "  random:COUNT:SEED         a random thread, even if it can only wait\n"
                                  "  bursts:COUNT:SEED:LENGTH  a random thread, for 1 to LENGTH turns in a row\n"
                                  "  turns:COUNT               the threads in turn, 0, 1, 2 and so on\n"
                                  "  journal:FILE              the turns that a plugin's journal recorded\n"
                                  "  FILE                      thread numbers separated by white space\n";

namespace {

constexpr std::uint64_t most_turns = 100000000; // 200 MB
constexpr std::uint64_t most_work = 1000000000;
constexpr std::uint64_t most_seeds = 10000;

const char *const forms = "busy:COUNT:SEED[:WORK], random:COUNT:SEED, bursts:COUNT:SEED:LENGTH, turns:COUNT or journal:FILE";

std::vector<std::uint16_t> bursts(std::uint64_t count, std::uint64_t seed, std::uint64_t length, std::uint32_t threads) {
    Random random(seed);
    std::vector<std::uint16_t> schedule;
    while (schedule.size() < count) {
        const std::uint16_t thread = static_cast<std::uint16_t>(random.below(threads));
        const std::uint64_t turns = length == 1 ? 1 : 1 + random.below(length);
        schedule.insert(schedule.end(), std::min<std::uint64_t>(turns, count - schedule.size()), thread);
    }
    return schedule;
}

std::vector<std::uint16_t> in_turn(std::uint64_t count, std::uint32_t threads) {
    std::vector<std::uint16_t> schedule;
    for (std::uint64_t k = 0; k < count; ++k) {
        schedule.push_back(static_cast<std::uint16_t>(k % threads));
    }
    return schedule;
}

// The threads of a journal's entries, in order. An entry that is cut off or has another bit set is refused, with its place.
std::vector<std::uint16_t> turns_of_journal(const std::string &path) {
    const Journal journal = journal_of(read_bytes(path, SIZE_MAX));
    if (journal.broken) {
        refuse(path, hmcs::Refusal{HMCS_JOURNAL_BROKEN, journal.end});
    }
    warn(path + ": a recording depends on the thresholds of the recorded lock; with others the threads would come in another order");
    return journal.threads();
}

} // namespace

Schedule::Schedule(const std::string &word) : name_(word), kind_(Kind::given) {
    const std::vector<std::string> parts = split(word, ':');
    if (parts.size() > 1 && parts[0] == "journal") {
        given_ = turns_of_journal(word.substr(8));
        return;
    }
    const std::pair<const char *, Kind> names[] = {{"turns", Kind::turns}, {"random", Kind::random}, {"bursts", Kind::bursts}, {"busy", Kind::busy}};
    for (const auto &[name, kind] : names) {
        kind_ = parts.size() > 1 && parts[0] == name ? kind : kind_;
    }
    if (kind_ == Kind::given) {
        std::error_code ignored;
        if (word.find(':') != std::string::npos && !std::filesystem::exists(word, ignored)) {
            fail("the schedule " + word + " is neither a file nor " + forms);
        }
        given_ = turns_of(word, read_bytes(word, SIZE_MAX));
        return;
    }
    const std::size_t least = kind_ == Kind::turns ? 2 : kind_ == Kind::bursts ? 4 : 3;
    const std::size_t most = kind_ == Kind::busy ? 4 : least;
    if (parts.size() < least || parts.size() > most) {
        fail("the schedule " + word + " must be " + forms);
    }
    count_ = number("the count of a schedule", parts[1], most_turns);
    if (parts.size() > 2) {
        const std::size_t dots = parts[2].find("..");
        seed_ = number("the seed of a schedule", parts[2].substr(0, dots), UINT64_MAX);
        last_seed_ = dots == std::string::npos ? seed_ : number("the last seed of a schedule", parts[2].substr(dots + 2), UINT64_MAX);
        if (last_seed_ < seed_ || last_seed_ - seed_ >= most_seeds) {
            fail("the seeds of the schedule " + word + " must go up, and be at most " + std::to_string(most_seeds));
        }
    }
    if (kind_ == Kind::bursts) {
        extra_ = number("the length of a burst", parts[3], UINT32_MAX);
        if (extra_ == 0) {
            fail("the length of a burst must be at least 1");
        }
    } else if (parts.size() > 3) {
        extra_ = number("the work of a schedule", parts[3], most_work);
    }
}

std::vector<std::uint16_t> Schedule::tested(std::uint32_t threads) const {
    for (std::size_t turn = 0; turn < given_.size(); ++turn) {
        if (given_[turn] >= threads) {
            const std::string thread = std::to_string(given_[turn]) + (given_[turn] == 65535 ? " or more" : "");
            throw Stop{refused, name_ + ": refused by 12 at " + std::to_string(turn) + ": turn " + std::to_string(turn) + " names thread " + thread +
                                    ", but the tree's threads are 0 to " + std::to_string(threads - 1) + "\n"};
        }
    }
    return given_;
}

std::vector<Schedule> Schedule::by_seed() const {
    std::vector<Schedule> schedules;
    for (std::uint64_t seed = seed_;; ++seed) {
        schedules.push_back(*this);
        if (has_seeds()) {
            std::vector<std::string> parts = split(name_, ':');
            parts[2] = std::to_string(seed);
            std::string name;
            for (const std::string &part : parts) {
                name += (name.empty() ? "" : ":") + part;
            }
            schedules.back().name_ = name;
            schedules.back().seed_ = schedules.back().last_seed_ = seed;
        }
        if (seed == last_seed_) {
            return schedules;
        }
    }
}

std::vector<std::uint16_t> Schedule::turns(const hmcs::Tree &tree) const {
    const std::uint32_t threads = tree.words().threads;
    switch (kind_) {
    case Kind::given: return tested(threads);
    case Kind::turns: return in_turn(count_, threads);
    case Kind::random: return bursts(count_, seed_, 1, threads);
    case Kind::bursts: return bursts(count_, seed_, extra_, threads);
    default: return busy_turns(tree, count_, seed_, extra_);
    }
}

std::vector<std::uint16_t> turns_of(const std::string &path, const std::string &bytes) {
    std::vector<std::uint16_t> schedule;
    std::size_t at = 0;
    while ((at = bytes.find_first_not_of(" \t\r\n", at)) != std::string::npos) {
        const std::size_t end = std::min(bytes.find_first_of(" \t\r\n", at), bytes.size());
        const std::string word = bytes.substr(at, std::min<std::size_t>(end - at, 30));
        std::uint64_t thread = 0;
        const auto [stopped, error] = std::from_chars(bytes.data() + at, bytes.data() + end, thread);
        if (stopped != bytes.data() + end || error == std::errc::invalid_argument) {
            fail(path + ": turn " + std::to_string(schedule.size()) + " must be a thread number, not \"" + word + "\"");
        }
        // a number above 65,535 is refused like 65,535
        schedule.push_back(static_cast<std::uint16_t>(error == std::errc() ? std::min<std::uint64_t>(thread, 65535) : 65535));
        at = end;
    }
    return schedule;
}

} // namespace tool
