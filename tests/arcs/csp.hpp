// Binary constraint satisfaction problems: random ones of several kinds, and arc consistency by AC-3.
#pragma once
#include <algorithm>
#include <cstddef>
#include <cstdlib>
#include <deque>
#include <utility>
#include <vector>

#include "../support/random.hpp"

// Values of both variables count from 0.
struct Constraint {
    int first = 0, second = 0;
    std::vector<std::vector<bool>> allowed;  // [value of first][value of second]

    bool allows(int side, int value, int other) const { return side == 0 ? allowed[value][other] : allowed[other][value]; }
    int variable(int side) const { return side == 0 ? first : second; }
};

struct Csp {
    std::vector<int> sizes;  // of each variable's domain
    std::vector<Constraint> constraints;
};

using Domains = std::vector<std::vector<bool>>;

enum class Relation { RANDOM, LESS, EQUAL, DIFFERENT, APART };

inline bool related(Random& random, Relation relation, int tightness, int one, int other) {
    switch (relation) {
        case Relation::LESS: return one < other;
        case Relation::EQUAL: return one == other;
        case Relation::DIFFERENT: return one != other;
        case Relation::APART: return std::abs(one - other) > 1;
        default: return !random.chance(tightness);
    }
}

inline Constraint random_constraint(Random& random, const Csp& csp, int first, int second, Relation relation, int tightness) {
    Constraint constraint{first, second, std::vector<std::vector<bool>>(csp.sizes[first], std::vector<bool>(csp.sizes[second]))};
    for (int one = 0; one < csp.sizes[first]; one++)
        for (int other = 0; other < csp.sizes[second]; other++)
            constraint.allowed[one][other] = related(random, relation, tightness, one, other);
    return constraint;
}

inline Domains full_domains(const Csp& csp) {
    Domains domains;
    for (int size : csp.sizes) domains.emplace_back(size, true);
    return domains;
}

inline bool is_empty(const std::vector<bool>& domain) { return std::find(domain.begin(), domain.end(), true) == domain.end(); }

// Removes the values of one side that have no support on the other; true where one was removed.
inline bool revise(const Constraint& constraint, int side, Domains& domains) {
    std::vector<bool>& domain = domains[constraint.variable(side)];
    const std::vector<bool>& others = domains[constraint.variable(1 - side)];
    bool removed = false;
    for (size_t value = 0; value < domain.size(); value++) {
        bool supported = false;
        for (size_t other = 0; other < others.size(); other++)
            supported = supported || (others[other] && constraint.allows(side, static_cast<int>(value), static_cast<int>(other)));
        if (!domain[value] || supported) continue;
        domain[value] = false;
        removed = true;
    }
    return removed;
}

// AC-3: revises every arc, and again the arcs towards a domain that lost a value; false where a domain is empty.
inline bool make_arc_consistent(const Csp& csp, Domains& domains) {
    for (const std::vector<bool>& domain : domains)
        if (is_empty(domain)) return false;
    std::deque<std::pair<size_t, int>> arcs;
    for (size_t i = 0; i < csp.constraints.size(); i++)
        for (int side : {0, 1}) arcs.emplace_back(i, side);
    while (!arcs.empty()) {
        auto [index, side] = arcs.front();
        arcs.pop_front();
        if (!revise(csp.constraints[index], side, domains)) continue;
        int changed = csp.constraints[index].variable(side);
        if (is_empty(domains[changed])) return false;
        for (size_t i = 0; i < csp.constraints.size(); i++)
            for (int towards : {0, 1})
                if (csp.constraints[i].variable(1 - towards) == changed) arcs.emplace_back(i, towards);
    }
    return true;
}
