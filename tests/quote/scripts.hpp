// Scripts: lines in form, lines that are nearly so, and other bytes.
#pragma once
#include <cstddef>
#include <string>
#include <vector>

#include "../bytes/damage.hpp"
#include "../support/lines.hpp"
#include "../support/random.hpp"

// A take-back of up to a few decisions, or of any number of digits that there may be.
inline std::string back_line(Random& random) {
    static const std::vector<std::string> ends = {"0", "00", "9", "999999999", "000000000", "000000001", "123456789", "4294967"};
    return "b " + (random.chance(15) ? random.pick(ends) : decimal(random, random.chance(5) ? 0 : random.between(1, 3), 15));
}

// How many bytes behind a line of this length make it one of about 256 or 65,536.
inline size_t bytes_to_wrap(Random& random, size_t length) {
    return static_cast<size_t>(random.between(-3, 11) + (random.chance(75) ? 256 : 65536)) - length;
}

// A take-back with a byte more, fewer or another; a front part of one; one byte and many, in it or behind it.
inline std::string near_line(Random& random) {
    static const std::string bytes("\0\t\r 01239:/bB-+\x0b\x0c\xb0\xe2\xff", 20);
    std::string line = back_line(random);
    size_t place = random_place(random, line);
    char byte = bytes[static_cast<size_t>(random.below(static_cast<int>(bytes.size())))];
    int kind = random.below(9);
    if (kind < 3) line.insert(place, 1, byte);
    if (kind == 3 || kind == 4) line[place % line.size()] = byte;
    if (kind == 5) line.erase(place % line.size(), 1);
    if (kind == 6) line.resize(place);
    if (kind == 7) line.insert(place, static_cast<size_t>(random.between(2, random.chance(90) ? 300 : 70000)), byte);
    if (kind == 8) line.append(bytes_to_wrap(random, line.size()), byte);
    return line;
}

inline std::string strange_line(Random& random) {
    int kind = random.below(100);
    if (kind < 60) return near_line(random);
    return kind < 90 ? malformed_line(random) : random_bytes(random, random.below(20), 80);
}

struct Mixture {
    int decisions = 60, backs = 25;  // of 100 lines; the others are strange
    int positive = 50;               // of 100 decisions
};

inline Mixture mixture(Random& random, int positive) {
    static const std::vector<Mixture> kinds = {{60, 25, 50}, {85, 12, 50}, {30, 40, 50}, {10, 30, 50}, {0, 100, 50}, {75, 25, 50}};
    Mixture mix = random.pick(kinds);
    mix.positive = positive;
    return mix;
}

inline std::string script_line(Random& random, int variables, const Mixture& mix) {
    int kind = random.below(100), variable = random.between(1, variables);
    if (kind < mix.decisions) return script_number(random, random.chance(mix.positive) ? variable : -variable);
    return kind < mix.decisions + mix.backs ? back_line(random) : strange_line(random);
}

// The last line with or without its byte 10; now and then more of these, other damage, or nothing at all.
inline std::string any_script(Random& random, int variables, int lines, int positive) {
    Mixture mix = mixture(random, positive);
    std::string script;
    for (; lines > 0; lines--) script += script_line(random, variables, mix) + "\n";
    if (random.chance(10)) damage_once(random, script);
    if (random.chance(5)) script += "\n\n";
    if (random.chance(40) && !script.empty()) script.pop_back();
    return random.chance(3) ? "" : script;
}
