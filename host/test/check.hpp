// Checks, counted and printed if they fail: shared by the host's tests.
#ifndef HMCS_TEST_CHECK_HPP
#define HMCS_TEST_CHECK_HPP

#include <cstdio>

namespace {

int checks = 0;
int failures = 0;

void check(bool holds, const char *what, int line) {
    ++checks;
    if (!holds) {
        ++failures;
        std::printf("line %d: not so: %s\n", line, what);
    }
}

} // namespace

#define CHECK(x) check((x), #x, __LINE__)

#endif
