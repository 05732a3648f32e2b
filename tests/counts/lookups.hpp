// What lookups answer, by documents 01 and 02 and the trail of a run: the state, and the decisions up to and including the literal.
#pragma once
#include <algorithm>
#include <cstddef>
#include <cstdint>
#include <cstdlib>
#include <tariff.h>
#include <vector>

#include "judge.hpp"

// The level that a run tells of a place on its trail: the decisions counted up to it, or another one by a fault.
inline uint32_t level_told(const Run& run, size_t place, uint32_t counted) {
    bool decided = counted > 0 && run.starts[counted - 1] == place;
    switch (run.fault) {
        case Fault::LEVEL_NOW: return static_cast<uint32_t>(run.starts.size());
        case Fault::LEVEL_BEFORE: return decided ? counted - 1 : counted;
        case Fault::LEVEL_BEHIND: return decided ? counted : counted + 1;
        case Fault::LEVEL_BELOW: return std::max(counted, 1u) - 1;
        case Fault::LEVEL_AS_PLACE: return static_cast<uint32_t>(place) + 1;
        case Fault::LEVEL_PAST_FIXED: return counted - std::min(counted, run.fixed);
        case Fault::LEVEL_OF_DECISIONS: return decided ? counted : 0;
        case Fault::LEVEL_LEFT_OUT: return 0;
        case Fault::LEVEL_NO_CONFLICT: return run.conflict != 0 ? 0 : counted;
        case Fault::LEVEL_OF_FALSE:
        case Fault::LEVEL_AT_FIRST:
        case Fault::LEVEL_EVER:
        case Fault::LEVEL_RESET: return run.stamp(std::abs(run.trail[place]));
        default: return counted;
    }
}

// What a run tells of a place on its trail: 4 x level, plus 1 if wanted and plus 2 if barred.
inline uint64_t settled_answer(const Run& run, size_t place, uint32_t counted) {
    if (run.fault == Fault::TOP_OPEN && run.conflict != 0 && counted == run.starts.size()) return TARIFF_IS_OPEN;
    bool wanted = (run.trail[place] > 0) != (run.fault == Fault::SIGN_TURNED);
    return 4 * uint64_t{level_told(run, place, counted)} + (wanted ? TARIFF_IS_WANTED : TARIFF_IS_BARRED);
}

// The answers to all numbers that are looked up.
inline Lookups lookups_of(const Run& run) {
    uint32_t variables = static_cast<uint32_t>(run.formula.variables);
    Numbers numbers = looked_up(variables);
    std::vector<uint32_t> counted = run.levels();
    Lookups by_variable(variables + 1, run.fault == Fault::LEVEL_OF_OPEN ? 4 * run.starts.size() : TARIFF_IS_OPEN), answers;
    for (size_t place = 0; place < run.trail.size(); place++)
        by_variable[static_cast<size_t>(std::abs(run.trail[place]))] = settled_answer(run, place, counted[place]);
    for (uint32_t number : numbers) {
        if (run.fault == Fault::WRAPS_NUMBERS) number &= 0x7fffffffu;
        bool open = (number == 0 && run.fault == Fault::OPEN_AT_ZERO) || (number > variables && run.fault == Fault::OPEN_BEYOND);
        bool variable = number >= 1 && number <= variables;
        answers.push_back(variable ? by_variable[number] : open ? TARIFF_IS_OPEN : c_refusal(13));
    }
    return answers;
}
