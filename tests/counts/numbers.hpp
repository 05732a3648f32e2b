// The numbers of a book by document 01, and those of a session that holds a run, part by part, by docs/LAYOUT.md.
#pragma once
#include <array>
#include <cstddef>
#include <cstdint>
#include <string>
#include <utility>
#include <vector>

#include "../support/library.hpp"
#include "run.hpp"

struct Part {
    std::string name;
    Numbers numbers;
};

// V, C, L, then C + 1 starts, then L literals.
inline std::vector<Part> book_parts(const Formula& formula) {
    auto number = [](int value) { return static_cast<uint32_t>(value); };
    Numbers starts{0}, literals;
    for (const Clause& clause : formula.clauses) {
        for (int literal : clause) literals.push_back(literal_number(literal));
        starts.push_back(static_cast<uint32_t>(literals.size()));
    }
    return {
        {"V, C, L", {number(formula.variables), number(clause_count(formula)), number(literal_count(formula))}},
        {"starts", starts},
        {"literals", literals},
    };
}

inline Numbers trail_numbers(const Run& run) {
    Numbers literals;
    for (int literal : run.trail) literals.push_back(literal_number(literal));
    return literals;
}

inline Numbers filled(Numbers numbers, size_t length) {
    numbers.resize(length, 0);
    return numbers;
}

inline Numbers header_numbers(const Run& run) {
    Numbers header(HEADER);
    header[TRAIL_LENGTH] = static_cast<uint32_t>(run.trail.size());
    header[DECISIONS] = static_cast<uint32_t>(run.starts.size());
    header[CONFLICT] = static_cast<uint32_t>(run.conflict);
    header[BACKTRACKS] = static_cast<uint32_t>(run.backtracks);
    header[FIXED] = run.fixed;
    return header;
}

// By variable: 0 open, else 2 x its trail place, from 1, plus 1 if negative.
inline Numbers value_numbers(const Run& run) {
    Numbers values(static_cast<size_t>(run.formula.variables), 0);
    for (size_t place = 0; place < run.trail.size(); place++) {
        int literal = run.trail[place];
        values[static_cast<size_t>(std::abs(literal)) - 1] = 2 * static_cast<uint32_t>(place + 1) + (literal < 0 ? 1 : 0);
    }
    return values;
}

// By clause, one number or more of what the run keeps of it.
template <class Of>
Numbers by_clause(const Run& run, Of of) {
    Numbers numbers;
    for (const Watched& watched : run.clauses)
        for (uint32_t number : of(watched)) numbers.push_back(number);
    return numbers;
}

// The node of a clause's watch on a literal: 2 c + 1 is the first watch of clause c, 2 c + 2 the second.
inline uint32_t node_of(const Run& run, size_t clause, uint32_t literal) {
    int first = run.formula.clauses[clause][static_cast<size_t>(run.clauses[clause].positions[0])];
    return 2 * static_cast<uint32_t>(clause) + (literal_number(first) == literal ? 1 : 2);
}

// The watch lists as chains: the first node of each literal's, from literal 2 on, and of each node the next one.
inline std::pair<Numbers, Numbers> chains(const Run& run) {
    Numbers heads(run.lists.size() - 2, 0), links(2 * run.clauses.size(), 0);
    for (uint32_t literal = 2; literal < run.lists.size(); literal++) {
        uint32_t* end = &heads[literal - 2];
        for (size_t clause : run.lists[literal]) {
            *end = node_of(run, clause, literal);
            end = &links[*end - 1];
        }
    }
    return {heads, links};
}

inline std::vector<Part> session_parts(const Run& run) {
    size_t variables = static_cast<size_t>(run.formula.variables);
    auto number = [](auto value) { return static_cast<uint32_t>(value); };
    auto [heads, links] = chains(run);
    return {
        {"header", header_numbers(run)},
        {"trail", filled(trail_numbers(run), variables)},
        {"levels", filled(run.levels(), variables)},
        {"values", value_numbers(run)},
        {"watches", by_clause(run, [&](const Watched& w) { return std::array{number(w.positions[0]), number(w.positions[1])}; })},
        {"pointers", by_clause(run, [&](const Watched& w) { return std::array{number(w.pointer)}; })},
        {"checks", by_clause(run, [&](const Watched& w) { return std::array{w.checks}; })},
        {"heads", heads},
        {"links", links},
    };
}

inline Numbers session_numbers(const Run& run) {
    Numbers numbers;
    for (const Part& part : session_parts(run)) numbers.insert(numbers.end(), part.numbers.begin(), part.numbers.end());
    return numbers;
}
