// What must hold of lookups whatever the engine, by the text, the calls and what they answered: no second run is needed.
#pragma once
#include <algorithm>
#include <cstddef>
#include <cstdint>
#include <string>
#include <tariff.h>

#include "judge.hpp"

class Ages {
public:
    explicit Ages(uint32_t variables) : variables(variables), numbers(looked_up(variables)) {}

    // An opening: no decision is in force, and nothing is known of what is assigned.
    void open() {
        decisions.clear();
        last.clear();
        lowest = 0;
    }

    // A call, with its answer: accepted decisions are in force until they are taken back.
    void take(const Call& call, uint64_t answer) {
        if (tariff_kind(answer) == TARIFF_REFUSED || call.kind == Call::FIX) return;
        if (call.kind == Call::DECIDE) return decisions.push_back(call.number);
        expect(call.number <= decisions.size(), "more choices are taken back than are in force");
        decisions.resize(decisions.size() - call.number);
        lowest = std::min(lowest, decisions.size());
    }

    // All lookups on the session as it is now.
    void look(const Lookups& now) {
        expect(decisions.size() <= TARIFF_FEATURES, "more choices are in force than there can be features");
        for (size_t i = 0; i < numbers.size(); i++)
            if (!in_range(numbers[i], now[i])) throw Disagreement("lookup of " + std::to_string(numbers[i]) + " is " + std::to_string(now[i]));
        const std::string name = "lookup of choice";
        for (size_t i = 0; i < decisions.size(); i++)
            compare_number(now[decisions[i] / 2], 4 * (i + 1) + TARIFF_IS_WANTED + decisions[i] % 2, name, i + 1);
        for (uint32_t variable = 1; variable <= variables && !last.empty(); variable++) check_stays(variable, now[variable]);
        last = now;
        lowest = decisions.size();
    }

private:
    // No variable is refused; what is assigned has a level, at most the decisions in force, and what is open has none.
    bool in_range(uint32_t number, uint64_t answer) const {
        if (number < 1 || number > variables) return answer == c_refusal(13);
        if (tariff_kind(answer) != TARIFF_ACCEPTED || tariff_state(answer) > TARIFF_IS_BARRED) return false;
        return tariff_state(answer) == TARIFF_IS_OPEN ? answer == 0 : tariff_level(answer) <= decisions.size();
    }

    // Over the calls between two lookups all stays that is assigned up to the fewest decisions in force meanwhile, and nothing joins it.
    void check_stays(uint32_t variable, uint64_t now) const {
        static const std::string name = "lookup, as before, of";
        auto old = [&](uint64_t answer) { return tariff_state(answer) != TARIFF_IS_OPEN && tariff_level(answer) <= lowest; };
        if (old(last[variable]) || old(now)) compare_number(now, last[variable], name, variable);
    }

    uint32_t variables;
    Numbers numbers;    // that are looked up
    Numbers decisions;  // in force, the oldest first
    Lookups last;       // the lookups before, on this session; none since the opening
    size_t lowest = 0;  // the fewest decisions in force since then
};
