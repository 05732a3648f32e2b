// A formula in conjunctive normal form, as written and as read, the limits of a rule book, and the ceiling of its literal checks.
#pragma once
#include <algorithm>
#include <cstddef>
#include <cstdint>
#include <cstdlib>
#include <string>
#include <vector>

constexpr int MAX_VARIABLES = 500;
constexpr int MAX_CLAUSES = 1500;
constexpr int MAX_LITERALS = 6000;
constexpr int MAX_CLAUSE_LENGTH = 255;
constexpr size_t MAX_TEXT = 60000;

using Clause = std::vector<int>;

struct Formula {
    int variables = 0;
    std::vector<Clause> clauses;
};

inline int clause_count(const Formula& formula) { return static_cast<int>(formula.clauses.size()); }

inline int literal_count(const Formula& formula) {
    size_t count = 0;
    for (const Clause& clause : formula.clauses) count += clause.size();
    return static_cast<int>(count);
}

inline bool stands(const Clause& clause, int literal) { return std::find(clause.begin(), clause.end(), literal) != clause.end(); }

// Each literal once, at its first place.
inline Clause first_places(const Clause& written) {
    Clause kept;
    for (int literal : written)
        if (!stands(kept, literal)) kept.push_back(literal);
    return kept;
}

// A literal that stands in the clause with its opposite, or 0.
inline int both_ways(const Clause& clause) {
    auto found = std::find_if(clause.begin(), clause.end(), [&](int literal) { return stands(clause, -literal); });
    return found == clause.end() ? 0 : *found;
}

// A clause as it is read: a repeated literal stands once; with a variable both ways the clause is always met and has no literals.
inline Clause as_read(const Clause& written) {
    Clause kept = first_places(written);
    return both_ways(kept) != 0 ? Clause{} : kept;
}

inline Formula as_read(Formula formula) {
    for (Clause& clause : formula.clauses) clause = as_read(clause);
    return formula;
}

// The most checks between two backtracks: 2n - 3 for each clause of n >= 2 literals.
inline uint64_t check_ceiling(const Formula& formula) {
    uint64_t ceiling = 0;
    for (const Clause& clause : formula.clauses)
        if (clause.size() >= 2) ceiling += 2 * clause.size() - 3;
    return ceiling;
}

// The DIMACS text, one clause in a line.
inline std::string dimacs(const Formula& formula) {
    std::string text = "p cnf " + std::to_string(formula.variables) + " " + std::to_string(clause_count(formula)) + "\n";
    for (const Clause& clause : formula.clauses) {
        for (int literal : clause) text += std::to_string(literal) + " ";
        text += "0\n";
    }
    return text;
}
