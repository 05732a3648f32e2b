// What the cases of a test came to, and the sizes that they reached.
#pragma once
#include <algorithm>
#include <iostream>
#include <string>

#include "answer.hpp"
#include "formula.hpp"
#include "repeats.hpp"
#include "session.hpp"

struct Totals {
    long cases = 0, answers = 0, opening_conflicts = 0, later_conflicts = 0, backtracks = 0, refusals = 0;
    int variables = 0, clauses = 0, literals = 0, clause_length = 0, decisions = 0, taken_back = 0, implied = 0;
    repeats::Tally repeated;

    // A formula as it is written.
    void add(const Formula& written) {
        cases++;
        variables = std::max(variables, written.variables);
        clauses = std::max(clauses, clause_count(written));
        literals = std::max(literals, literal_count(written));
        for (const Clause& clause : written.clauses) clause_length = std::max(clause_length, static_cast<int>(clause.size()));
        repeated.add(written);
    }

    void add(const Session& session, const Answer& answer) { add(static_cast<int>(session.decisions().size()), answer); }

    void add(int decisions_in_force, const Answer& answer) {
        answers++;
        if (answer.kind == Answer::CONFLICT) ++(answer.decision == 0 ? opening_conflicts : later_conflicts);
        if (answer.kind == Answer::BACK) backtracks++, taken_back = std::max(taken_back, answer.number);
        if (answer.kind == Answer::REFUSED) refusals++;
        decisions = std::max(decisions, decisions_in_force);
        implied = std::max(implied, static_cast<int>(answer.implied.size()));
    }

    void print(const std::string& test, double seconds) const {
        repeated.print(test);
        std::cout << test << ": " << cases << " cases, " << answers << " answers compared: " << opening_conflicts
                  << " contradictions at the opening, " << later_conflicts << " later, " << backtracks << " take-backs, " << refusals
                  << " refusals; up to V " << variables << ", C " << clauses << ", L " << literals << ", " << clause_length
                  << " literals in a rule, " << decisions << " choices in force, " << taken_back << " taken back at once, " << implied
                  << " forced at once; " << static_cast<int>(seconds + 0.5) << " s\n";
    }
};
