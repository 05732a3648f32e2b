// What a line of a script asks for: a decision, a backtrack, or nothing that can be read.
#pragma once
#include <optional>
#include <string>

#include "text.hpp"

struct Command {
    enum Kind { MALFORMED, DECIDE, BACKTRACK };
    Kind kind = MALFORMED;
    int number = 0;  // the literal, or how many decisions to take back
};

inline Command parse_command(const std::string& line) {
    bool back = line.compare(0, 2, "b ") == 0;
    bool negative = !back && line.compare(0, 1, "-") == 0;
    std::optional<int> number = unsigned_number(line.substr(back ? 2 : negative ? 1 : 0));
    if (!number) return Command{};
    return Command{back ? Command::BACKTRACK : Command::DECIDE, negative ? -*number : *number};
}
