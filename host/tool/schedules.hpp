// Schedules by name: a file of thread numbers, or generated, with the same result on every machine.
#ifndef HMCS_SCHEDULES_HPP
#define HMCS_SCHEDULES_HPP

#include "hmcs.hpp"

#include <string>
#include <vector>

namespace tool {

class Schedule {
  public:
    // turns:COUNT, random:COUNT:SEED, bursts:COUNT:SEED:LENGTH, busy:COUNT:SEED[:WORK], or a file, which is read here. A seed may be a range, such
    // as 1..20.
    explicit Schedule(const std::string &word);
    // Existing turns, with a name for people.
    Schedule(const std::string &name, const std::vector<std::uint16_t> &turns) : name_(name), kind_(Kind::given), given_(turns) {}

    const std::string &name() const { return name_; }
    // One schedule for each seed of a range; any other schedule gives only itself.
    std::vector<Schedule> by_seed() const;
    bool has_seeds() const { return last_seed_ > seed_; }
    // The turns for an accepted tree. Those of `busy` depend on its thresholds, all others only on the number of its threads.
    std::vector<std::uint16_t> turns(const hmcs::Tree &tree) const;

  private:
    enum class Kind { given, turns, random, bursts, busy };

    // The turns of a file; a turn that names no thread of the tree is refused, with its place.
    std::vector<std::uint16_t> tested(std::uint32_t threads) const;

    std::string name_;
    Kind kind_;
    std::vector<std::uint16_t> given_;
    std::uint64_t count_ = 0, extra_ = 0; // extra: the length of a burst, or the work of `busy`
    std::uint64_t seed_ = 0, last_seed_ = 0;
};

// The default schedule.
extern const char *const usual_schedule;

// The forms of a schedule's name, a line each, for the help of commands.
extern const char *const schedule_help;

} // namespace tool

#endif
