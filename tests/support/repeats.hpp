// Repeated literals and variables both ways in the clauses of a formula, as generators of rule books write them.
#pragma once
#include <algorithm>
#include <cstddef>
#include <iostream>
#include <string>
#include <utility>
#include <vector>

#include "formula.hpp"
#include "random.hpp"
#include "shapes.hpp"

namespace repeats {

inline void insert_anywhere(Random& random, Clause& clause, int literal) {
    clause.insert(clause.begin() + random.below(static_cast<int>(clause.size()) + 1), literal);
}

// So many copies of the clause's own literals.
inline void copy_literals(Random& random, Clause& clause, int count) {
    for (; count > 0; count--) {
        int literal = random.pick(clause);
        insert_anywhere(random, clause, literal);
    }
}

// A clause of up to ten literals, one variable of it both ways.
inline Clause always_met(Random& random, int variables) {
    Clause clause = shapes::random_clause(random, variables, random.between(1, 6));
    int literal = random.pick(clause);
    insert_anywhere(random, clause, -literal);
    copy_literals(random, clause, random.chance(30) ? random.between(1, 3) : 0);
    return clause;
}

// Repeated literals in some clauses, and clauses with a variable both ways between them, as far as the limits allow. What is implied stays.
inline Formula spread(Random& random, Formula formula) {
    int room = MAX_LITERALS - literal_count(formula), percent = random.pick(std::vector<int>{4, 20, 60});
    for (Clause& clause : formula.clauses) {
        int count = random.chance(percent) ? random.between(1, random.chance(95) ? 3 : MAX_CLAUSE_LENGTH) : 0;
        count = std::min({count, room, MAX_CLAUSE_LENGTH - static_cast<int>(clause.size())});
        copy_literals(random, clause, count);
        room -= count;
    }
    for (int more = random.pick(std::vector<int>{1, 3, 20}); more > 0 && clause_count(formula) < MAX_CLAUSES && room >= 10; more--) {
        Clause clause = always_met(random, formula.variables);
        room -= static_cast<int>(clause.size());
        formula.clauses.insert(formula.clauses.begin() + random.below(clause_count(formula) + 1), std::move(clause));
    }
    return formula;
}

// A literal becomes a copy or the opposite of another one of its clause.
inline void overwrite(Random& random, Clause& clause) {
    int length = static_cast<int>(clause.size());
    if (length < 2) return;
    int place = random.below(length), other = (place + random.between(1, length - 1)) % length;
    clause[place] = random.chance(50) ? clause[other] : -clause[other];
}

// The same in some clauses; the formula is as long as before.
inline Formula overwrite(Random& random, Formula formula) {
    int percent = random.pick(std::vector<int>{2, 10, 40});
    for (Clause& clause : formula.clauses)
        if (random.chance(percent)) overwrite(random, clause);
    return formula;
}

// A formula as it may be written; in 40 of 100 no variable stands twice in a clause.
inline Formula any(Random& random, Formula formula) {
    int kind = random.below(100);
    if (kind >= 85) formula = overwrite(random, std::move(formula));
    return kind < 40 ? formula : spread(random, std::move(formula));
}

// How many clauses were written with a repeated literal and with a variable both ways, and how many formulas with both.
struct Tally {
    long formulas = 0, repeated = 0, both_ways = 0, with_both = 0;

    void add(const Formula& written) {
        long repeated_here = 0, both_ways_here = 0;
        for (const Clause& clause : written.clauses) {
            size_t kept = as_read(clause).size();
            if (kept == 0) both_ways_here++;
            if (kept > 0 && kept < clause.size()) repeated_here++;
        }
        formulas++;
        repeated += repeated_here;
        both_ways += both_ways_here;
        if (repeated_here > 0 && both_ways_here > 0) with_both++;
    }

    void print(const std::string& test) const {
        std::cout << test << ": " << repeated << " rules with a repeated literal and " << both_ways << " with a feature both ways; "
                  << with_both << " of " << formulas << " books have both kinds\n";
    }
};

}  // namespace repeats
