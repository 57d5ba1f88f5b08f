// Checks whether the library matches the header, as the first use does.
#include "hmcs.hpp"

#include <cstdio>

int main() {
    try {
        std::puts(hmcs::Lock(hmcs::read_tree("(#1)").tree).accepted() ? "accepted" : "refused");
    } catch (const std::runtime_error &error) {
        std::puts(error.what());
    }
    return 0;
}
