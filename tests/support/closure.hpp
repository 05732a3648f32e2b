// The unit closure of a formula as it is written and of decisions: as CaDiCaL fixes it, and as a naive loop finds it.
#pragma once
#include <cadical.hpp>
#include <cstddef>
#include <cstdlib>
#include <stdexcept>
#include <string>
#include <vector>

#include "formula.hpp"
#include "play.hpp"

// A fresh solver that only propagates: no decision, no preprocessing, and no lucky phases, which plain leaves on.
// The decisions are unit clauses. A clause can be left out, by its number.
inline Assignment cadical_closure(const Formula& formula, const std::vector<int>& decisions, int left_out = 0) {
    CaDiCaL::Solver solver;
    if (!solver.set("quiet", 1) || !solver.configure("plain") || !solver.set("lucky", 0))
        throw std::runtime_error("CaDiCaL has other options");
    for (size_t i = 0; i < formula.clauses.size(); i++)
        if (static_cast<int>(i) + 1 != left_out) {
            for (int literal : formula.clauses[i]) solver.add(literal);
            solver.add(0);
        }
    for (int decision : decisions) {
        solver.add(decision);
        solver.add(0);
    }
    solver.limit("decisions", 0);
    int status = solver.solve();  // 20: a conflict; 10: all is assigned; 0: the limit of decisions
    Assignment closure{status == 20, std::vector<int>(formula.variables + 1, 0)};
    if (closure.conflict) return closure;
    for (int variable = 1; variable <= formula.variables; variable++) closure.values[variable] = solver.fixed(variable);
    return closure;
}

// Assigns the last literal that is not false wherever all others are; true where something changed.
inline bool propagate_once(const Formula& formula, Assignment& closure) {
    bool changed = false;
    for (const Clause& clause : formula.clauses) {
        int last = 0;  // the open literal that was met last, or 0
        bool satisfied = false, several = false;
        for (int literal : clause) {
            int value = closure.values[std::abs(literal)] * (literal > 0 ? 1 : -1);
            satisfied = satisfied || value > 0;
            if (value != 0) continue;
            several = several || (last != 0 && last != literal);
            last = literal;
        }
        if (satisfied || several) continue;
        if (last == 0) closure.conflict = true;
        if (last != 0) closure.values[std::abs(last)] = last > 0 ? 1 : -1;
        changed = changed || last != 0;
    }
    return changed && !closure.conflict;
}

inline Assignment naive_closure(const Formula& formula, const std::vector<int>& decisions) {
    Assignment closure{false, std::vector<int>(formula.variables + 1, 0)};
    for (int decision : decisions) {
        int& value = closure.values[std::abs(decision)];
        int wanted = decision > 0 ? 1 : -1;
        if (value == -wanted) closure.conflict = true;
        value = wanted;
    }
    while (propagate_once(formula, closure)) {
    }
    return closure;
}
