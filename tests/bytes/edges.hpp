// Rule books on either side of a limit, and headers of every kind.
#pragma once
#include <algorithm>
#include <cstddef>
#include <string>
#include <vector>

#include "../support/formula.hpp"
#include "../support/random.hpp"
#include "../support/shapes.hpp"

namespace edges {

// Repeats a variable, or goes over the last one, at the end of a clause or anywhere in it.
inline void spoil(Random& random, const Formula& formula, Clause& clause) {
    int last = static_cast<int>(clause.size()) - 1, place = random.chance(50) ? last : random.below(last + 1);
    if (random.chance(50))
        clause[place] = random.sign(formula.variables + 1);
    else
        clause[place] = random.chance(50) ? clause[0] : -clause[random.below(last + 1)];
}

// The number of clauses that the header says may be one off, and the last 0 may be missing.
inline std::string text_of(Random& random, const Formula& formula) {
    std::string text = dimacs(formula);
    int said = clause_count(formula) + random.pick(std::vector<int>{0, 0, 0, 0, 0, 0, -1, 1});
    if (said >= 0) text.replace(0, text.find('\n'), "p cnf " + std::to_string(formula.variables) + " " + std::to_string(said));
    if (random.chance(10)) text.erase(text.size() - 2);
    if (random.chance(10)) text += random.pick(std::vector<std::string>{"0\n", "1", "1 0\n", "501 0\n", "x\n", "c 1 0\n"});
    return text;
}

inline std::string clause_length(Random& random) {
    Formula formula{random.between(257, MAX_VARIABLES), {}};
    for (int i = random.below(3); i > 0; i--) formula.clauses.push_back(shapes::random_clause(random, formula.variables, 3));
    formula.clauses.push_back(shapes::random_clause(random, formula.variables, random.between(254, 257)));
    if (random.chance(40)) spoil(random, formula, formula.clauses.back());
    if (random.chance(50)) formula.clauses.push_back({1});
    return text_of(random, formula);
}

// About 6,000 literals in clauses that `make(length)` makes.
template <class Make>
Formula about_6000(Random& random, int variables, Make make) {
    Formula formula{variables, {}};
    int left = random.between(MAX_LITERALS - 2, MAX_LITERALS + 2), longest = random.pick(std::vector<int>{7, 30, 255});
    while (left > 0) {
        int length = std::min(left, random.between(longest - 2, longest));
        formula.clauses.push_back(make(length));
        left -= length;
    }
    return formula;
}

inline std::string literals(Random& random) {
    Formula formula = about_6000(random, MAX_VARIABLES, [&](int length) { return shapes::random_clause(random, MAX_VARIABLES, length); });
    if (random.chance(40)) spoil(random, formula, formula.clauses.back());
    return text_of(random, formula);
}

// A clause of about 255 literals, or about 6,000 in all, over few variables, so that most are repeated; 60 of 100 have no variable both ways.
inline std::string repeated(Random& random) {
    int variables = random.between(1, 12), positive = random.chance(60) ? 100 : random.between(0, 100);
    auto make = [&](int length) {
        Clause clause;
        for (; length > 0; length--) clause.push_back(shapes::random_clause(random, variables, 1, positive)[0]);
        return clause;
    };
    if (random.chance(50)) return text_of(random, about_6000(random, variables, make));
    return text_of(random, Formula{variables, {{1}, make(random.between(MAX_CLAUSE_LENGTH - 1, MAX_CLAUSE_LENGTH + 2)), {-1, 1}}});
}

inline std::string clauses(Random& random) {
    Formula formula{random.between(1, MAX_VARIABLES), {}};
    for (int i = random.between(MAX_CLAUSES - 1, MAX_CLAUSES + 1); i > 0; i--)
        formula.clauses.push_back({random.sign(random.between(1, formula.variables))});
    return text_of(random, formula);
}

inline std::string variables(Random& random) {
    Formula formula{random.pick(std::vector<int>{0, 1, 2, 499, 500, 501, 502}), {}};
    int over = random.below(2);
    for (int i = random.below(6); i > 0; i--)
        formula.clauses.push_back(shapes::random_clause(random, formula.variables + over, random.between(1, 4)));
    return text_of(random, formula);
}

// A text of about 60,000 bytes, and some that are far over.
inline std::string length(Random& random) {
    std::string text = dimacs(shapes::tiny(random));
    size_t target = MAX_TEXT + static_cast<size_t>(random.between(-2, 3));
    if (random.chance(10)) target *= static_cast<size_t>(random.between(2, 4));
    std::string filling = random.chance(50) ? std::string(target - text.size(), ' ') : "c" + std::string(target - text.size() - 1, 'x');
    if (random.chance(50) && filling[0] == 'c') {
        filling.back() = '\n';
        return filling + text;
    }
    return text + filling;
}

inline std::string header(Random& random) {
    static const std::vector<std::string> headers = {
        "",          "p",           "p cnf",         "p cnf 3",      "p cnf 3 1 0",  "p cnf 3 1 c", "pcnf 3 1",    "p cnf3 1",
        "P cnf 3 1", "p CNF 3 1",   " p cnf 3 1",    "\np cnf 3 1",  "\tp cnf 3 1",  "p cnf -3 1",  "p cnf 3 -1",  "p cnf +3 1",
        "p cnf 3 1x", "p cnf 0 1",  "p cnf 000 1",   "p cnf 3 1501", "p cnf 501 1",  "p cnf 500 1", "p cnf 3 1",   "p\tcnf\r3  1 \r",
        "c\np cnf 3 1", "c p\ncc\np cnf 3 1", " c\np cnf 3 1", "p cnf 0000000003 1", "p cnf 000000003 000000001", "p cnf 3 0000000001",
        "p cnf 999999999 1", "p cnf 1000000000 1", "p cnf 3 999999999", "p cnf 0 1501", "p cnf x 1501", "p cnf 501 x", "p dnf 3 1",
        "p cnf 3\n1", "p\ncnf 3 1", "c only", "c\r\np cnf 3 1", "p cnf 3 1\nc", "\xef\xbb\xbfp cnf 3 1", "p cnf 3 -0", "p cnf -0 1",
    };
    static const std::vector<std::string> bodies = {
        "1 -2 0\n", "1 -2 0", "1 0 2 0", "1 -4 0\n", "0\n", "1 -1 0\n", "3 3 -1 0\n", "2 2 -2 0", "-0 0\n", "\n\n 1\n2\n0\n",
    };
    std::string text = random.pick(headers);
    if (random.chance(80)) text += "\n";
    if (random.chance(80)) text += random.pick(bodies);
    return text;
}

inline std::string any(Random& random) {
    static const std::vector<std::string (*)(Random&)> kinds = {
        clause_length, literals, repeated, repeated, clauses, variables, length, header, header, header,
    };
    return random.pick(kinds)(random);
}

}  // namespace edges
