// Parts of scripts: numbers, and lines that are malformed.
#pragma once
#include <cstddef>
#include <string>
#include <vector>

#include "decimal.hpp"
#include "random.hpp"

// A literal or a 0, which a script may also write with a sign.
inline std::string script_number(Random& random, int value) {
    std::string number = decimal(random, value, 5);
    return value == 0 && random.chance(30) ? "-" + number : number;
}

inline const std::vector<std::string>& malformed_lines() {
    static const std::vector<std::string> lines = {
        "",      "+1",    " 1",         "1 ",          "1\r",           "\t1",          "-",         "--1",        "- 1",
        "1-",    "1 2",   "1 0",        "0x1",         "1.0",           "one",          "b",         "b ",         "b1",
        "B 1",   "b  1",  "b\t1",       "b -1",        "b +1",          "b 1 ",         "b 1\r",     " b 1",       "bb 1",
        "c",     "p",     "1234567890", "-1234567890", "b 1234567890",  "0000000001",   "b 0000000001", "-0000000000", "b -0",
        "/",     ":",     "1:",         "1/",          "b b",           "-b 1",         "b 1 1",     "\xff",       "1\xff",
        "f 1",   "f 0",
    };
    return lines;
}

inline std::string malformed_line(Random& random) {
    int kind = random.below(20);
    if (kind == 0) return std::string(1, '\0');
    if (kind == 1) return "1" + std::string(static_cast<size_t>(random.between(1, 3)), '\0');
    if (kind == 2) return std::string(static_cast<size_t>(random.between(11, 40)), '1');
    return random.pick(malformed_lines());
}
