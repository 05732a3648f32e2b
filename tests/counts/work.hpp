// What the comparisons by the library came to.
#pragma once
#include <cstdint>
#include <iostream>

#include "fix_tally.hpp"
#include "looks.hpp"

struct Work {
    uint64_t calls = 0, numbers = 0, checks = 0;
    FixTally fixings;
    LookTally lookups;

    void print() const {
        std::cout << "counts: " << checks << " checks in the last lines; by the library " << numbers << " numbers after " << calls << " calls\n";
        fixings.print();
        lookups.print();
    }
};
