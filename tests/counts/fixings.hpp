// Calls between the lines of a script that leave the trail as it is: fixings, and backtracks that reach a fixed decision.
#pragma once
#include <cstdint>
#include <vector>

#include "../support/library.hpp"
#include "../support/random.hpp"

class Fixings {
public:
    // Between two lines none, few or many; lists that fix up to one, two, five or all decisions.
    explicit Fixings(Random& random)
        : random(random), percent(random.pick(std::vector<int>{0, 5, 15, 40})), most(random.pick(std::vector<uint32_t>{1, 2, 5, 500})) {}

    // Behind the opening or a line; how many decisions are fixed then. A conflict of a decision is soon over, and gets more of them.
    int put(uint32_t level, bool conflict) {
        bool brief = conflict && level > 0;
        behind.emplace_back();
        while (random.chance(brief ? 2 * percent : percent))
            behind.back().push_back(random.chance(brief ? 40 : 70) ? fixing(level, conflict) : reaching(level));
        return static_cast<int>(fixed);
    }

    std::vector<std::vector<Call>> behind;  // the opening, then each line

private:
    // Any f, most often one about the fixed decisions or about those in force.
    Call fixing(uint32_t level, bool conflict) {
        uint32_t next = fixed + static_cast<uint32_t>(random.between(1, 2)), any = static_cast<uint32_t>(random.next());
        uint32_t below = static_cast<uint32_t>(random.below(static_cast<int>(level) + 1));
        uint32_t f = random.pick(std::vector<uint32_t>{fixed, fixed - 1, next, next, next, below, level, level + 1, any});
        if (f > most && f <= level) f = fixed;
        if (!conflict && f >= fixed && f <= level) fixed = f;
        return {Call::FIX, f};
    }

    // A k over the decisions that are not fixed, now and then so far that 32 bits do not hold k + f.
    Call reaching(uint32_t level) {
        uint32_t within = static_cast<uint32_t>(random.below(static_cast<int>(fixed) + 1));
        return {Call::BACKTRACK, random.chance(80) || fixed == 0 ? level - fixed + 1 + within : 0 - fixed + within};
    }

    Random& random;
    int percent;
    uint32_t most;
    uint32_t fixed = 0;
};
