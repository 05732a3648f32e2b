// A walk through a session by the library: in each state the lookups are held to CaDiCaL's closures of the oldest decisions in force.
#pragma once
#include <algorithm>
#include <cstddef>
#include <cstdint>
#include <cstdlib>
#include <functional>
#include <iostream>
#include <string>
#include <tariff.h>
#include <utility>
#include <vector>

#include "../support/closure.hpp"
#include "../support/library.hpp"
#include "../support/repeats.hpp"
#include "../support/shapes.hpp"

// A state of a session beside what CaDiCaL says of it.
struct State {
    std::vector<int> decisions;        // in force, the oldest first
    std::vector<Assignment> closures;  // of none of them, of the oldest one, of the two oldest and so on
    size_t named = 0;                  // the number that an opening or a decision answered last: in conflict the clause that it names, from 1

    bool conflict() const { return closures.back().conflict; }
};

// What is seen of an answer to a lookup of a variable: a wrong view changes it.
using View = std::function<uint64_t(const State&, int variable, uint64_t answer)>;

struct Tally {
    long states = 0, conflicts = 0, lookups = 0;
    long open = 0, at_zero = 0, lower = 0, at_top = 0;  // answers, by their level
    long contradicted = 0;                              // of those at the top level, in a conflict
    uint32_t highest = 0;

    void add(const State& state, uint64_t answer) {
        uint32_t level = tariff_level(answer);
        bool settled = tariff_state(answer) != TARIFF_IS_OPEN, top = level == state.decisions.size();
        lookups++;
        highest = std::max(highest, level);
        ++(!settled ? open : level == 0 ? at_zero : top ? at_top : lower);
        if (settled && level > 0 && top && state.conflict()) contradicted++;
    }

    void print(double seconds) const {
        std::cout << "levels: " << lookups << " lookups in " << states << " states, " << conflicts << " of them contradictions: " << open << " open, "
                  << at_zero << " settled at the opening, " << lower << " before the last choice and " << at_top << " by it, " << contradicted
                  << " of these in contradiction; up to level " << highest << "; " << static_cast<int>(seconds + 0.5) << " s\n";
    }
};

// Whether a literal is settled, by the answers to lookups.
inline bool settled(const Lookups& seen, int literal) {
    return tariff_state(seen[std::abs(literal)]) == (literal > 0 ? TARIFF_IS_WANTED : TARIFF_IS_BARRED);
}

// The clauses that one of the settled literals meets.
inline Formula met_clauses(const Formula& written, const Lookups& seen) {
    Formula met{written.variables, {}};
    for (const Clause& clause : written.clauses)
        if (std::any_of(clause.begin(), clause.end(), [&](int literal) { return settled(seen, literal); })) met.clauses.push_back(clause);
    return met;
}

// What a lookup has to answer: the state, with the fewest decisions whose closure holds the literal.
inline uint64_t least_answer(const std::vector<Assignment>& closures, size_t variable) {
    for (size_t level = 0; level < closures.size(); level++) {
        int value = closures[level].values[variable];
        if (value != 0) return 4 * level + (value > 0 ? TARIFF_IS_WANTED : TARIFF_IS_BARRED);
    }
    return TARIFF_IS_OPEN;
}

// Below the top level no closure is in conflict. Where that of all decisions is, CaDiCaL tells no more of it; but what is settled then has to be just
// the closure of the clauses that it meets, those that implied its literals among them, and has to reach as far as the clause that is named: each of its
// literals is false.
inline void check_lookups(const Formula& written, const State& state, const Lookups& seen) {
    std::vector<Assignment> closures = state.closures;
    if (state.conflict()) {
        closures.back() = cadical_closure(met_clauses(written, seen), state.decisions);
        expect(state.named >= 1 && state.named <= written.clauses.size(), "the rule named is no rule");
        for (int literal : written.clauses[state.named - 1]) expect(settled(seen, -literal), "the rule named is not all false");
    }
    for (const Assignment& closure : closures) expect(!closure.conflict, "the settled features contradict each other");
    for (size_t variable = 1; variable <= static_cast<size_t>(written.variables); variable++) {
        uint64_t least = least_answer(closures, variable);
        if (seen[variable] != least)
            throw Disagreement("lookup " + std::to_string(variable) + " is " + std::to_string(seen[variable]) + ", must be " + std::to_string(least));
    }
}

class Walk {
public:
    Walk(uint64_t seed, const shapes::Shape& shape, View view, Tally& tally)
        : random(seed), written(repeats::any(random, shape.make(random))), library(random, dimacs(written)), view(std::move(view)), tally(tally) {}

    void run() {
        climbing = random.pick(std::vector<int>{50, 70, 90, 97});
        close({}, library.open());
        if (state.conflict()) return refuse();
        for (int steps = step_count(); steps > 0; steps--) step();
    }

private:
    // Large formulas get fewer steps; some walks have eight times as many, above all where there are few clauses and so many decisions.
    int step_count() {
        int steps = random.between(5, 20 + 20000 / (400 + literal_count(written)));
        bool sparse = clause_count(written) < written.variables / 2;
        return random.chance(sparse ? 40 : 4) ? 8 * steps : steps;
    }

    // The library has answered: it has come to a conflict just where the closure of the decisions has one.
    void close(std::vector<int> decisions, uint64_t answer) {
        state.decisions = std::move(decisions);
        state.closures.push_back(cadical_closure(written, state.decisions));
        state.named = tariff_number(answer);
        expect(tariff_kind(answer) == (state.conflict() ? TARIFF_CONFLICT : TARIFF_ACCEPTED), "only CaDiCaL has a conflict, or only the library");
        look();
    }

    void step() {
        std::vector<int> open;
        for (int variable = 1; !state.conflict() && variable <= written.variables; variable++)
            if (state.closures.back().values[variable] == 0) open.push_back(variable);
        int loose = static_cast<int>(state.decisions.size()) - fixed;
        if (!open.empty() && random.chance(loose > 0 ? climbing : 100)) return decide(random.sign(random.pick(open)));
        if (loose > 0) return backtrack(random.chance(60) ? 1 : random.between(1, loose));
        refuse();
    }

    void decide(int literal) {
        uint32_t variable = static_cast<uint32_t>(std::abs(literal));
        std::vector<int> decisions = state.decisions;
        decisions.push_back(literal);
        close(decisions, take(Call::DECIDE, literal > 0 ? tariff_wanted(variable) : tariff_barred(variable)));
        if (!state.conflict() && random.chance(5)) fix();
    }

    void backtrack(int k) {
        expect(take(Call::BACKTRACK, static_cast<uint32_t>(k)) == 0, "a take-back is refused");
        state.decisions.resize(state.decisions.size() - static_cast<size_t>(k));
        state.closures.resize(state.decisions.size() + 1);
        look();
    }

    // One decision more is fixed: levels do not depend on it.
    void fix() {
        expect(take(Call::FIX, static_cast<uint32_t>(fixed + 1)) == 0, "a fixing is refused");
        fixed++;
        look();
    }

    // Nothing is open or there is a conflict, and all decisions are fixed or none is in force.
    void refuse() {
        expect(tariff_kind(take(Call::DECIDE, tariff_wanted(1))) == TARIFF_REFUSED, "a choice is not refused");
        look();
    }

    uint64_t take(Call::Kind kind, uint32_t number) { return library.take({kind, number}); }

    // Conflicts are seldom, and get more lookups.
    void look() {
        if (!library.lookups_due(random, state.conflict() ? 2000000 : 200000)) return;
        Lookups seen = library.lookups();
        for (size_t variable = 1; variable <= library.variables(); variable++) {
            seen[variable] = view(state, static_cast<int>(variable), seen[variable]);
            tally.add(state, seen[variable]);
        }
        check_lookups(written, state, seen);
        tally.states++;
        if (state.conflict()) tally.conflicts++;
    }

    Random random;
    Formula written;
    Library library;
    View view;
    Tally& tally;
    State state;
    int climbing = 0;  // of 100 steps that could go either way, so many are decisions
    int fixed = 0;
};
