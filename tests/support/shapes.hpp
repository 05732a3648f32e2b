// Random formulas of many shapes, from one variable to the limits of a rule book.
#pragma once
#include <algorithm>
#include <cstddef>
#include <cstdlib>
#include <string>
#include <utility>
#include <vector>

#include "formula.hpp"
#include "random.hpp"

namespace shapes {

// Adds a clause as long as it fits the limits.
inline bool add(Formula& formula, int& literals, Clause clause) {
    int length = static_cast<int>(clause.size());
    if (clause_count(formula) == MAX_CLAUSES || literals + length > MAX_LITERALS) return false;
    literals += length;
    formula.clauses.push_back(std::move(clause));
    return true;
}

inline std::vector<int> permutation(Random& random, int n) {
    std::vector<int> variables(n);
    for (int i = 0; i < n; i++) variables[i] = i + 1;
    random.shuffle(variables);
    return variables;
}

// A clause of distinct variables; of 100 literals, so many are positive.
inline Clause random_clause(Random& random, int variables, int length, int positive = 50) {
    Clause clause;
    while (static_cast<int>(clause.size()) < std::min(length, variables)) {
        int variable = random.between(1, variables);
        bool met = std::any_of(clause.begin(), clause.end(), [&](int other) { return std::abs(other) == variable; });
        if (!met) clause.push_back(random.chance(positive) ? variable : -variable);
    }
    return clause;
}

// A size from 1 to the limit, most often small.
inline int size_up_to(Random& random, int limit) {
    int part = random.pick(std::vector<int>{1, 1, 2, 4, 10, 40});
    return random.between(1, std::max(1, limit / part));
}

// Clauses whose lengths are drawn from a list.
inline Formula by_lengths(Random& random, int variables, int clauses, const std::vector<int>& lengths, int positive) {
    Formula formula{variables, {}};
    int literals = 0;
    for (int i = 0; i < clauses; i++)
        if (!add(formula, literals, random_clause(random, variables, random.pick(lengths), positive))) break;
    return formula;
}

inline Formula tiny(Random& random) {
    return by_lengths(random, random.between(1, 8), random.between(0, 14), {1, 2, 2, 2, 3, 3, 3, 4, 5}, 50);
}

inline Formula empty(Random& random) { return Formula{size_up_to(random, MAX_VARIABLES), {}}; }

// Few clauses, so that many decisions can be made.
inline Formula sparse(Random& random) {
    int variables = random.between(100, MAX_VARIABLES);
    return by_lengths(random, variables, variables / random.between(3, 10), {2, 3, 4, 30}, 50);
}

// Three literals in each clause, near the threshold of satisfiability.
inline Formula threshold(Random& random) {
    int variables = std::max(3, size_up_to(random, 352));
    int clauses = std::min(MAX_CLAUSES, variables * random.between(380, 440) / 100);
    return by_lengths(random, variables, clauses, {3}, 50);
}

inline Formula mixed(Random& random) {
    int variables = size_up_to(random, MAX_VARIABLES);
    int clauses = std::min(MAX_CLAUSES, variables * random.between(1, 4));
    return by_lengths(random, variables, clauses, {2, 2, 2, 3, 3, 4, 5, 6, 8, 12}, random.between(10, 90));
}

// At most one positive literal in a clause, and some facts.
inline Formula horn(Random& random) {
    Formula formula{std::max(4, size_up_to(random, MAX_VARIABLES)), {}};
    int literals = 0, clauses = std::min(MAX_CLAUSES, formula.variables * random.between(1, 3));
    for (int i = 0; i < clauses; i++) {
        Clause clause = random_clause(random, formula.variables, random.between(2, 5), 0);
        if (random.chance(90)) clause[random.below(static_cast<int>(clause.size()))] *= -1;
        if (random.chance(6)) clause = {random.between(1, formula.variables)};
        if (!add(formula, literals, clause)) break;
    }
    return formula;
}

// Each literal of a chain implies the next; now and then two chains meet in opposite literals.
inline Formula chain(Random& random) {
    Formula formula{std::max(2, size_up_to(random, MAX_VARIABLES)), {}};
    std::vector<int> order = permutation(random, formula.variables);
    for (int& literal : order) literal = random.sign(literal);
    int literals = 0, reach = random.between(1, 3);
    for (size_t i = 0; i + 1 < order.size(); i++) {
        Clause clause{order[i + 1]};
        for (size_t back = 0; back < static_cast<size_t>(reach) && back <= i; back++) clause.push_back(-order[i - back]);
        random.shuffle(clause);
        add(formula, literals, clause);
    }
    if (random.chance(40)) add(formula, literals, {-order[(order.size() - 1) / 2], -order.back()});
    if (random.chance(20)) add(formula, literals, {order[0]});
    if (random.chance(30)) std::reverse(formula.clauses.begin(), formula.clauses.end());
    if (random.chance(30)) random.shuffle(formula.clauses);
    return formula;
}

inline Formula pigeonhole(Random& random) {
    int holes = random.between(1, 14), pigeons = std::max(1, std::min(15, holes + random.between(-1, 1)));
    Formula formula{holes * pigeons, {}};
    int literals = 0;
    for (int pigeon = 0; pigeon < pigeons; pigeon++) {
        Clause somewhere;
        for (int hole = 1; hole <= holes; hole++) somewhere.push_back(pigeon * holes + hole);
        add(formula, literals, somewhere);
    }
    for (int hole = 1; hole <= holes; hole++)
        for (int one = 0; one < pigeons; one++)
            for (int other = one + 1; other < pigeons; other++) add(formula, literals, {-(one * holes + hole), -(other * holes + hole)});
    if (random.chance(50)) random.shuffle(formula.clauses);
    return formula;
}

// Clauses of up to 255 literals.
inline Formula long_clauses(Random& random) {
    Formula formula{random.between(255, MAX_VARIABLES), {}};
    int literals = 0, positive = random.between(0, 100);
    while (add(formula, literals, random_clause(random, formula.variables, random.chance(60) ? 255 : random.between(2, 254), positive)))
        if (random.chance(5)) break;
    for (int i = random.between(0, 40); i > 0; i--)
        add(formula, literals, random_clause(random, formula.variables, random.between(1, 2), 50));
    return formula;
}

// Many clauses of one literal, seldom at odds with each other.
inline Formula units(Random& random) {
    Formula formula{size_up_to(random, MAX_VARIABLES), {}};
    int literals = 0, clauses = size_up_to(random, MAX_CLAUSES), against = random.pick(std::vector<int>{0, 0, 0, 1, 50});
    for (int i = 0; i < clauses; i++) {
        int variable = random.between(1, formula.variables);
        int usual = variable % 3 == 0 ? variable : -variable;
        Clause clause{random.chance(against) ? -usual : usual};
        if (random.chance(20)) clause = random_clause(random, formula.variables, random.between(2, 4));
        if (!add(formula, literals, clause)) break;
    }
    return formula;
}

// Chains of equations x + y + z = parity, four clauses each.
inline Formula parity(Random& random) {
    Formula formula{std::max(3, size_up_to(random, 370)), {}};
    std::vector<int> order = permutation(random, formula.variables);
    int literals = 0;
    for (size_t i = 0; i + 2 < order.size(); i += static_cast<size_t>(random.between(1, 2))) {
        int odd = random.below(2);
        for (int signs = 0; signs < 8; signs++) {
            if (__builtin_parity(static_cast<unsigned>(signs)) != odd) continue;
            Clause clause;
            for (int j = 0; j < 3; j++) clause.push_back(signs >> j & 1 ? -order[i + j] : order[i + j]);
            add(formula, literals, clause);
        }
    }
    return formula;
}

// Groups of which exactly one is true, with implications between groups, as in a tariff.
inline Formula groups(Random& random) {
    Formula formula{std::max(6, size_up_to(random, MAX_VARIABLES)), {}};
    int literals = 0, size = random.between(2, 6);
    for (int first = 1; first + size - 1 <= formula.variables; first += size) {
        Clause some;
        for (int one = first; one < first + size; one++) {
            some.push_back(one);
            for (int other = one + 1; other < first + size && clause_count(formula) < 1100; other++) add(formula, literals, {-one, -other});
        }
        add(formula, literals, some);
    }
    for (int i = formula.variables; i > 0; i--)
        add(formula, literals, random_clause(random, formula.variables, random.between(2, 3), 45));
    return formula;
}

// V 500, C 1,500 and L 6,000, all three.
inline Formula full(Random& random) {
    Formula formula{MAX_VARIABLES, {}};
    int shift = random.below(3);
    for (int i = 0; i < MAX_CLAUSES; i++) {
        int length = 4 + (i % 2 == 0 ? shift : -shift);
        formula.clauses.push_back(random_clause(random, MAX_VARIABLES, length, 50));
    }
    random.shuffle(formula.clauses);
    return formula;
}

// Long clauses over few variables: most decisions make some of their literals false, so pointers go round.
inline Formula wide(Random& random) {
    int variables = random.between(6, random.pick(std::vector<int>{12, 40, 120})), longest = std::min(variables, 40);
    std::vector<int> lengths{3, random.between(4, longest), random.between(4, longest), longest};
    return by_lengths(random, variables, random.between(1, 60), lengths, random.between(50, 100));
}

struct Shape {
    std::string name;
    Formula (*make)(Random&);
    int cases;  // so many of 100
};

inline const std::vector<Shape>& all() {
    static const std::vector<Shape> list = {
        {"tiny", tiny, 24},       {"empty", empty, 2},   {"sparse", sparse, 2},   {"threshold", threshold, 10},   {"mixed", mixed, 11},
        {"horn", horn, 9},        {"chain", chain, 10},  {"parity", parity, 6},   {"pigeonhole", pigeonhole, 6},  {"units", units, 6},
        {"long", long_clauses, 6}, {"groups", groups, 5}, {"full", full, 3},
    };
    return list;
}

// The shape of a case number: by hundreds, each shape as often as it says.
inline const Shape& of_case(int number) {
    int rest = number % 100;
    for (const Shape& shape : all()) {
        rest -= shape.cases;
        if (rest < 0) return shape;
    }
    return all().front();
}

}  // namespace shapes
