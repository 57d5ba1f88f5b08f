// The generator of all generated schedules, the same on every machine.
#ifndef HMCS_RANDOM_HPP
#define HMCS_RANDOM_HPP

#include <cstdint>

namespace tool {

// splitmix64, of Steele, Lea and Flood, "Fast Splittable Pseudorandom Number Generators", 2014.
class Random {
  public:
    explicit Random(std::uint64_t seed) : word_(seed) {}

    // A number below a bound of at most 2^32, from the upper half of the next word.
    std::uint64_t below(std::uint64_t bound) { return ((next() >> 32) * bound) >> 32; }

  private:
    std::uint64_t next() {
        word_ += 0x9E3779B97F4A7C15;
        std::uint64_t z = word_;
        z = (z ^ (z >> 30)) * 0xBF58476D1CE4E5B9;
        z = (z ^ (z >> 27)) * 0x94D049BB133111EB;
        return z ^ (z >> 31);
    }

    std::uint64_t word_;
};

} // namespace tool

#endif
