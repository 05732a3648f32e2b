// Numbers as rule books and scripts may write them, some with leading zeros.
#pragma once
#include <cstddef>
#include <cstdlib>
#include <string>

#include "random.hpp"

// Of 100 numbers, so many may have leading zeros, up to 9 digits; `-` stands before them.
inline std::string decimal(Random& random, int value, int zeros) {
    std::string digits = std::to_string(std::abs(value));
    if (random.chance(zeros)) digits.insert(0, static_cast<size_t>(random.between(0, 9 - static_cast<int>(digits.size()))), '0');
    return (value < 0 ? "-" : "") + digits;
}
