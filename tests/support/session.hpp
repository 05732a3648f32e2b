// A session as the answers of `desk` tell it; each answer is checked against the trail so far and the table of refusals.
#pragma once
#include <cstddef>
#include <cstdint>
#include <cstdlib>
#include <functional>
#include <stdexcept>
#include <string>
#include <vector>

#include "answer.hpp"
#include "command.hpp"
#include "formula.hpp"

constexpr uint64_t MAX_BACKTRACKS = 1000000;

// Thrown where `desk` answers otherwise than it should.
struct Disagreement : std::runtime_error {
    using std::runtime_error::runtime_error;
};

inline void expect(bool holds, const std::string& what) {
    if (!holds) throw Disagreement(what);
}

// Makes a comparison; whether it disagrees, and by a message that begins with this part.
inline bool disagrees(const std::string& part, const std::function<void()>& compare) {
    try {
        compare();
        return false;
    } catch (const Disagreement& disagreement) {
        return std::string(disagreement.what()).rfind(part, 0) == 0;
    }
}

class Session {
public:
    explicit Session(const Formula& formula)
        : formula(formula), values(formula.variables + 1, 0), occurrences(2 * formula.variables + 1) {
        for (const Clause& clause : formula.clauses)
            for (int literal : clause) occurrences[formula.variables + literal].push_back(&clause);
    }

    // 1 where the variable is true, -1 where it is false, 0 where it is open; in a conflict as before its decision.
    int value(int variable) const { return values[variable]; }
    bool in_conflict() const { return conflict != 0; }
    const std::vector<int>& decisions() const { return decided; }

    // The number with which a line has to be refused, or 0.
    int refusal(const Command& command) const {
        if (command.kind == Command::MALFORMED) return 18;
        if (command.kind == Command::DECIDE) return decision_refusal(command.number);
        if (command.number == 0 || command.number > static_cast<int>(decided.size())) return 16;
        return backtracks == MAX_BACKTRACKS ? 17 : 0;
    }

    void open(const Answer& answer) { propagated(0, answer); }

    void take(const Command& command, const Answer& answer) {
        int refused = refusal(command);
        if (refused != 0) {
            expect(answer.kind == Answer::REFUSED && answer.number == refused, "not refused by " + std::to_string(refused));
        } else if (command.kind == Command::BACKTRACK) {
            expect(answer.kind == Answer::BACK && answer.number == command.number, "the backtrack is not taken");
            backtrack(command.number);
        } else {
            starts.push_back(trail.size());
            decided.push_back(command.number);
            assign(command.number);
            propagated(command.number, answer);
        }
    }

    void end(const Answer& answer) const {
        expect(answer.kind == Answer::END, "the last line is not the end's");
        expect(answer.decisions == decided.size(), "choices in force: " + std::to_string(decided.size()));
        expect(answer.backtracks == backtracks, "accepted take-backs: " + std::to_string(backtracks));
        uint64_t ceiling = check_ceiling(formula) * (backtracks + 1);
        expect(answer.checks <= ceiling, "checks above the ceiling of " + std::to_string(ceiling));
    }

private:
    int decision_refusal(int literal) const {
        int variable = std::abs(literal);
        if (variable < 1 || variable > formula.variables) return 13;
        if (in_conflict()) return 14;
        return values[variable] != 0 ? 15 : 0;
    }

    int value_of(int literal) const { return literal > 0 ? values[literal] : -values[-literal]; }

    void assign(int literal) {
        values[std::abs(literal)] = literal > 0 ? 1 : -1;
        trail.push_back(literal);
    }

    void backtrack(int k) {
        size_t level = decided.size() - static_cast<size_t>(k);
        for (; trail.size() > starts[level]; trail.pop_back()) values[std::abs(trail.back())] = 0;
        starts.resize(level);
        decided.resize(level);
        conflict = 0;
        backtracks++;
    }

    void propagated(int decision, const Answer& answer) {
        expect(answer.kind == Answer::IMPLIED || answer.kind == Answer::CONFLICT, "no answer of an opening or a choice");
        expect(answer.decision == decision, "the answer is another line's");
        if (answer.kind == Answer::IMPLIED)
            for (int literal : answer.implied) imply(literal);
        else
            contradict(answer.clause);
    }

    void imply(int literal) {
        std::string name = std::to_string(literal);
        expect(literal != 0 && std::abs(literal) <= formula.variables, "forced out of range: " + name);
        expect(values[std::abs(literal)] == 0, "forced, but settled: " + name);
        expect(has_reason(literal), "no rule forces " + name);
        assign(literal);
    }

    // A clause whose other literals are all false earlier on the trail.
    bool has_reason(int literal) const {
        for (const Clause* clause : occurrences[formula.variables + literal]) {
            bool unit = true;
            for (int other : *clause) unit = unit && (other == literal || value_of(other) < 0);
            if (unit) return true;
        }
        return false;
    }

    void contradict(int clause) {
        expect(clause >= 1 && clause <= clause_count(formula), "no such rule: " + std::to_string(clause));
        expect(!formula.clauses[clause - 1].empty(), "the rule named is always met: " + std::to_string(clause));
        for (int literal : formula.clauses[clause - 1])
            expect(value_of(literal) <= 0, "the rule named is met by " + std::to_string(literal));
        conflict = clause;
    }

    const Formula& formula;
    std::vector<int> values;
    std::vector<std::vector<const Clause*>> occurrences;  // by literal, from -variables
    std::vector<int> trail;
    std::vector<size_t> starts;  // the place of each decision on the trail
    std::vector<int> decided;
    int conflict = 0;
    uint64_t backtracks = 0;
};
