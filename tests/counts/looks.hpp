// Lookups by the library beside a run: in which states they are made, and what they are compared with.
#pragma once
#include <algorithm>
#include <array>
#include <climits>
#include <cstddef>
#include <cstdint>
#include <iostream>
#include <string>
#include <tariff.h>

#include "../support/random.hpp"
#include "ages.hpp"
#include "lookups.hpp"

// How often all numbers were looked up in each kind of state, and what was found.
struct LookTally {
    enum State { OPENING, CHOICE, CONTRADICTION, TAKE_BACK, FIXING, REFUSAL, LENT, FAILING };
    std::array<long, FAILING + 1> states{};
    long in_conflict = 0, lookups = 0, at_zero = 0, higher = 0;
    uint32_t highest = 0;

    void add(State state, bool conflict, const Lookups& answers) {
        states[state]++;
        if (conflict) in_conflict++;
        lookups += static_cast<long>(answers.size());
        for (uint64_t answer : answers) {
            if (tariff_kind(answer) != TARIFF_ACCEPTED || tariff_state(answer) == TARIFF_IS_OPEN) continue;
            ++(tariff_level(answer) == 0 ? at_zero : higher);
            highest = std::max(highest, tariff_level(answer));
        }
    }

    void print() const {
        static const char* const names[] = {"openings", "choices", "contradictions", "take-backs", "fixings", "refusals", "lending", "lending in vain"};
        std::cout << "counts: " << lookups << " lookups of all features, after";
        for (size_t i = 0; i < states.size(); i++) std::cout << (i == 0 ? " " : ", ") << names[i] << " " << states[i];
        std::cout << "; " << in_conflict << " times in contradiction; " << at_zero << " settled at level 0 and " << higher << " above, up to level "
                  << highest << "\n";
    }
};

class Looks {
public:
    Looks(const Random& random, const Library& library, LookTally& tally) : random(random), tally(tally), ages(library.variables()) {}

    void open() {
        ages.open();
        state = LookTally::OPENING;
    }

    void take(const Call& call, uint64_t answer) {
        ages.take(call, answer);
        static const LookTally::State accepted[] = {LookTally::CHOICE, LookTally::TAKE_BACK, LookTally::FIXING};
        uint32_t kind = tariff_kind(answer);
        state = kind == TARIFF_REFUSED ? LookTally::REFUSAL : kind == TARIFF_CONFLICT ? LookTally::CONTRADICTION : accepted[call.kind];
    }

    // The session was lent with other numbers, and passes the examination or fails.
    void lend(bool passes) { state = passes ? LookTally::LENT : LookTally::FAILING; }

    // Up to how many examined numbers all lookups are made each time.
    enum Limit { SELDOM = 2500, OFTEN = 50000, ALWAYS = INT_MAX };

    void look(const Run& run, const Library& library, Limit limit) {
        if (!library.lookups_due(random, limit)) return;
        Lookups seen = library.lookups();
        bool fails = state == LookTally::FAILING;
        Lookups expected = fails ? Lookups(seen.size(), c_refusal(12)) : lookups_of(run);
        Numbers numbers = looked_up(library.variables());
        for (size_t i = 0; i < numbers.size(); i++) compare_number(seen[i], expected[i], "lookup of", numbers[i]);
        if (!fails) ages.look(seen);
        tally.add(state, run.conflict != 0, seen);
    }

private:
    Random random;
    LookTally& tally;
    Ages ages;
    LookTally::State state = LookTally::OPENING;
};
