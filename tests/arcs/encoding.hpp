// The support encoding of a binary constraint satisfaction problem (source document 002, section 2).
#pragma once
#include <cstddef>
#include <vector>

#include "../support/formula.hpp"
#include "csp.hpp"

struct Encoding {
    Formula formula;
    std::vector<int> bases;  // value v of variable i is the Boolean variable bases[i] + v

    int variable(int i, int value) const { return bases[i] + value; }
};

struct Clauses {
    bool at_most_one = true;
    bool subsumed = false;  // also the support clauses that an at-least-one clause subsumes
};

inline void encode_domains(const Csp& csp, const Clauses& wanted, Encoding& encoding) {
    for (int size : csp.sizes) {
        int base = encoding.formula.variables + 1;
        encoding.bases.push_back(base);
        encoding.formula.variables += size;
        Clause at_least_one;
        for (int value = 0; value < size; value++) at_least_one.push_back(base + value);
        encoding.formula.clauses.push_back(at_least_one);
        for (int value = 0; value < size && wanted.at_most_one; value++)
            for (int other = value + 1; other < size; other++) encoding.formula.clauses.push_back({-(base + value), -(base + other)});
    }
}

// For each value w of one side: not w, or one of the values of the other side that support it.
inline std::vector<Clause> support_clauses(const Csp& csp, const Encoding& encoding, const Constraint& constraint, bool subsumed) {
    std::vector<Clause> clauses;
    for (int side : {0, 1}) {
        int one = constraint.variable(side), other = constraint.variable(1 - side);
        for (int w = 0; w < csp.sizes[one]; w++) {
            Clause clause;
            for (int v = 0; v < csp.sizes[other]; v++)
                if (constraint.allows(side, w, v)) clause.push_back(encoding.variable(other, v));
            if (static_cast<int>(clause.size()) == csp.sizes[other] && !subsumed) continue;
            clause.push_back(-encoding.variable(one, w));
            clauses.push_back(clause);
        }
    }
    return clauses;
}

inline bool within_limits(const Formula& formula) {
    for (const Clause& clause : formula.clauses)
        if (clause.size() > MAX_CLAUSE_LENGTH) return false;
    return formula.variables <= MAX_VARIABLES && clause_count(formula) <= MAX_CLAUSES && literal_count(formula) <= MAX_LITERALS;
}

// Constraints that no longer fit the limits of a rule book leave the problem.
inline Encoding encode(Csp& csp, const Clauses& wanted) {
    Encoding encoding;
    encode_domains(csp, wanted, encoding);
    std::vector<Constraint> kept;
    for (const Constraint& constraint : csp.constraints) {
        std::vector<Clause> clauses = support_clauses(csp, encoding, constraint, wanted.subsumed);
        size_t before = encoding.formula.clauses.size();
        encoding.formula.clauses.insert(encoding.formula.clauses.end(), clauses.begin(), clauses.end());
        if (within_limits(encoding.formula))
            kept.push_back(constraint);
        else
            encoding.formula.clauses.resize(before);
    }
    csp.constraints = kept;
    return encoding;
}
