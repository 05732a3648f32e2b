// An agent with a session; the decisions in force are kept by the answers to its calls.
#pragma once
#include <cstddef>
#include <cstdint>
#include <cstdlib>
#include <functional>
#include <memory>
#include <string>
#include <tariff.h>
#include <vector>

#include "engines.hpp"

inline bool is_settled(uint64_t answer) { return tariff_state(answer) == TARIFF_IS_WANTED || tariff_state(answer) == TARIFF_IS_BARRED; }

struct Agent {
    // What is seen of an answer to a lookup: a wrong view changes it.
    using View = std::function<uint64_t(const Agent&, uint32_t number, uint64_t answer)>;

    std::unique_ptr<Engine> engine;
    View view;
    int variables;
    std::vector<int> decisions{};  // in force, the oldest first
    int fixed = 0, backtracks = 0;
    bool conflict = false;

    int level() const { return static_cast<int>(decisions.size()); }

    bool holds(int literal) const { return stands(decisions, literal); }

    void open() {
        decisions.clear();
        fixed = backtracks = 0;
        uint64_t answer = engine->open();
        expect(tariff_kind(answer) != TARIFF_REFUSED, "an opening is refused");
        conflict = tariff_kind(answer) == TARIFF_CONFLICT;
    }

    // Out of conflict, whether the decision is accepted; otherwise its variable is assigned.
    bool decide(int literal) {
        uint64_t answer = engine->take({Call::DECIDE, literal_number(literal)});
        if (tariff_kind(answer) == TARIFF_REFUSED) {
            compare_number(tariff_number(answer), 15, "refusal of choice", literal_number(literal));
            return false;
        }
        decisions.push_back(literal);
        conflict = tariff_kind(answer) == TARIFF_CONFLICT;
        return true;
    }

    void backtrack_to(int kept) {
        if (kept == level()) return;
        expect(engine->take({Call::BACKTRACK, static_cast<uint32_t>(level() - kept)}) == 0, "a take-back is refused");
        decisions.resize(static_cast<size_t>(kept));
        conflict = false;
        backtracks++;
    }

    void fix(int f) {
        expect(engine->take({Call::FIX, static_cast<uint32_t>(f)}) == 0, "a fixing is refused");
        fixed = f;
    }

    // A step of a random walk: a backtrack, or a decision on an open variable if one is found soon.
    void wander(Random& random, int climbing) {
        bool down = level() > fixed && (conflict || !random.chance(climbing));
        if (down) return backtrack_to(random.chance(60) ? level() - 1 : random.between(fixed, level() - 1));
        for (int tries = 5; !conflict && tries > 0; tries--)
            if (decide(random.sign(random.between(1, variables)))) return;
    }

    // Whether a literal, refused as a decision since its variable is assigned, is true.
    bool settled(int literal) const {
        uint32_t variable = static_cast<uint32_t>(std::abs(literal));
        uint64_t answer = view(*this, variable, engine->lookup(variable));
        expect(is_settled(answer), "15 is given to a choice of feature " + std::to_string(variable) + ", which is open by its lookup");
        return tariff_state(answer) == (literal > 0 ? TARIFF_IS_WANTED : TARIFF_IS_BARRED);
    }

    Lookups lookups() const {
        Lookups seen = engine->lookups();
        Numbers numbers = looked_up(static_cast<uint32_t>(variables));
        for (size_t i = 0; i < seen.size(); i++) seen[i] = view(*this, numbers[i], seen[i]);
        return seen;
    }
};
