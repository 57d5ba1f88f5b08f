// The rate as a host uses it: layouts, refusals at their places, and a million inputs compared bit for bit with the formula written here.
// Built with -ffp-contract=off, so no product is fused with a sum and every operation below rounds separately.
#include "check.hpp"
#include "hmcs.hpp"

#include <xmmintrin.h>

#include <array>
#include <cfloat>
#include <cmath>
#include <cstdint>
#include <cstdio>
#include <cstring>
#include <limits>
#include <string>
#include <vector>

static_assert(FLT_EVAL_METHOD == 0, "doubles are computed as doubles");
static_assert(std::numeric_limits<double>::is_iec559, "doubles are those of IEEE 754");

namespace {

std::uint64_t bits(double x) {
    std::uint64_t word;
    std::memcpy(&word, &x, sizeof word);
    return word;
}

double from_bits(std::uint64_t word) {
    double x;
    std::memcpy(&x, &word, sizeof x);
    return x;
}

constexpr double least = 1.0 / 1024;
constexpr double most = 1048576;

// What document 02 says, in C++.
hmcs_rate_reply expected(std::uint16_t h1, std::uint16_t h2, const hmcs_passing_times &times) {
    if (h1 == 0 || h2 == 0) {
        return {8, h1 == 0 ? 1U : 2U, 0};
    }
    const std::array<double, 3> each = {times.p1, times.p2, times.p3};
    for (std::uint32_t k = 0; k < 3; ++k) {
        if (std::isnan(each[k]) || each[k] < least || each[k] > most) {
            return {24, k + 1, 0};
        }
    }
    const std::uint64_t first = h1, second = h2;
    const double second_product = static_cast<double>(second - 1) * times.p2;
    const double first_product = static_cast<double>(second * (first - 1)) * times.p1;
    const double outer = times.p3 + second_product;
    const double cycle = outer + first_product;
    return {0, 0, static_cast<double>(first * second) / cycle};
}

std::uint64_t compared = 0;
std::uint64_t differing = 0;
std::uint64_t accepted = 0;

void compare(std::uint16_t h1, std::uint16_t h2, const hmcs_passing_times &times) {
    const hmcs_rate_reply got = hmcs_rate(h1, h2, times);
    const hmcs_rate_reply want = expected(h1, h2, times);
    ++compared;
    accepted += want.number == 0;
    if (got.number == want.number && got.place == want.place && bits(got.rate) == bits(want.rate)) {
        return;
    }
    if (differing++ == 0) {
        std::printf("rate of %u %u, %a %a %a: %u %u %a, but it should be %u %u %a\n", h1, h2, times.p1, times.p2, times.p3, got.number, got.place, got.rate,
                    want.number, want.place, want.rate);
    }
}

// Every pair of these thresholds with every three of these times.
void edges() {
    const double infinity = std::numeric_limits<double>::infinity();
    const std::array<std::uint16_t, 5> thresholds = {0, 1, 2, 255, 65535};
    const std::vector<double> times = {least,
                                       std::nextafter(least, 0),
                                       std::nextafter(least, 1),
                                       most,
                                       std::nextafter(most, 0),
                                       std::nextafter(most, infinity),
                                       1.0,
                                       0.1,
                                       1.0 / 3,
                                       0.0,
                                       -0.0,
                                       -1.0,
                                       -least,
                                       infinity,
                                       -infinity,
                                       std::numeric_limits<double>::quiet_NaN(),
                                       std::numeric_limits<double>::denorm_min(),
                                       DBL_MIN,
                                       DBL_MAX,
                                       from_bits(0x7FF0000000000001),
                                       from_bits(0xFFF8000000000000)};
    for (std::uint16_t h1 : thresholds) {
        for (std::uint16_t h2 : thresholds) {
            for (double p1 : times) {
                for (double p2 : times) {
                    for (double p3 : times) {
                        compare(h1, h2, {p1, p2, p3});
                    }
                }
            }
        }
    }
}

// A generator of the xorshift kind: the same numbers everywhere.
class Random {
  public:
    std::uint64_t word() {
        state_ ^= state_ << 13;
        state_ ^= state_ >> 7;
        state_ ^= state_ << 17;
        return state_;
    }

    std::uint64_t below(std::uint64_t bound) { return (word() >> 16) % bound; }

  private:
    std::uint64_t state_ = 0x2545F4914F6CDD1D;
};

std::uint16_t random_threshold(Random &random) {
    switch (random.below(4)) {
    case 0: return static_cast<std::uint16_t>(random.below(8));
    case 1: return static_cast<std::uint16_t>(1 + random.below(300));
    case 2: return static_cast<std::uint16_t>(65535 - random.below(8));
    default: return static_cast<std::uint16_t>(random.below(65536));
    }
}

// Mostly within the range, with each power of two equally likely; sometimes any bits.
double random_time(Random &random) {
    if (random.below(40) == 0) {
        return from_bits(random.word());
    }
    const std::uint64_t exponent = 1023 - 10 + random.below(30);
    return from_bits(exponent << 52 | random.word() >> 12);
}

void random_inputs(std::uint64_t count) {
    Random random;
    for (std::uint64_t k = 0; k < count; ++k) {
        const std::uint16_t h1 = random_threshold(random);
        const std::uint16_t h2 = random_threshold(random);
        const double p1 = random_time(random);
        const double p2 = random_time(random);
        compare(h1, h2, {p1, p2, random_time(random)});
    }
}

// Hosts often have subnormals flushed to zero, on the way in and out: no rate and no part of one is subnormal, so nothing changes.
void flushing() {
    const unsigned int before = _mm_getcsr();
    _mm_setcsr(before | 0x8040U);
    edges();
    _mm_setcsr(before);
}

// What a host calls, with the example of docs/RATE.md.
void wrapper() {
    const hmcs::RateResult example = hmcs::rate(16, 4, {0.05, 0.2, 1.0});
    CHECK(example.accepted() && bits(example.rate) == 0x402BD37A6F4DE9BE);
    CHECK(hmcs::rate(1, 1, {0.05, 0.2, 1.0}).rate == 1.0);
    CHECK(bits(hmcs::rate(4, 19, {0.05, 0.2, 1.0}).rate) == 0x4024671655E7F242);
    const hmcs::PassingTimes times = {1, 1, 1};
    CHECK(hmcs::rate(0, 1, times).refusal.number == HMCS_NO_THRESHOLD && hmcs::rate(0, 1, times).refusal.place == 1);
    CHECK(hmcs::rate(1, 0, times).refusal.place == 2 && hmcs::rate(0, 0, times).refusal.place == 1);
    CHECK(hmcs::rate(65535, 65535, times).accepted() && hmcs::rate(65535, 65535, times).rate == 1.0);
    const hmcs::RateResult bad = hmcs::rate(1, 1, {1, 0, std::nan("")});
    CHECK(bad.refusal.number == HMCS_BAD_TIME && bad.refusal.place == 2 && bits(bad.rate) == 0);
    CHECK(hmcs::rate(1, 0, {0, 0, 0}).refusal.number == HMCS_NO_THRESHOLD);
    CHECK(hmcs::rate(1, 1, {least, most, least}).accepted() && hmcs::rate(1, 1, {least, most, least}).rate == 1024.0);
    CHECK(std::string(bad.refusal.text()).find("passing time") != std::string::npos);
}

} // namespace

int main() {
    wrapper();
    edges();
    flushing();
    random_inputs(1000000);
    CHECK(differing == 0);
    CHECK(accepted > 800000);
    std::printf("rate: %d checks, %d failures; %llu inputs compared, %llu of them accepted\n", checks, failures, static_cast<unsigned long long>(compared),
                static_cast<unsigned long long>(accepted));
    return failures == 0 ? 0 : 1;
}
