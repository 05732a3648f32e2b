// Follows what `desk` printed for a formula and a script, line by line.
#pragma once
#include <cstddef>
#include <optional>
#include <string>
#include <vector>

#include "answer.hpp"
#include "command.hpp"
#include "formula.hpp"
#include "session.hpp"

inline Answer expect_answer(const std::string& line) {
    std::optional<Answer> answer = parse_answer(line);
    expect(answer.has_value(), "no answer of document 01: " + line.substr(0, 200));
    return *answer;
}

// `visit(n, session, answer)` is called after the opening, n = 0, and after each line, n = 1 and on.
template <class Visit>
void follow(const Formula& formula, const std::string& script, const std::string& output, Visit visit) {
    expect(!output.empty() && output.back() == '\n', "the last byte printed is not 10");
    std::vector<std::string> asked = lines_of(script), told = lines_of(output);
    expect(told.size() == asked.size() + 2, std::to_string(told.size()) + " answers to " + std::to_string(asked.size()) + " lines");
    Session session(formula);
    for (size_t i = 0; i <= asked.size(); i++) {
        try {
            Answer answer = expect_answer(told[i]);
            if (i == 0)
                session.open(answer);
            else
                session.take(parse_command(asked[i - 1]), answer);
            visit(i, session, answer);
        } catch (const Disagreement& disagreement) {
            std::string line = i == 0 ? "the opening" : "line " + std::to_string(i) + " `" + asked[i - 1].substr(0, 20) + "`";
            throw Disagreement(line + ", answered `" + told[i].substr(0, 200) + "`: " + disagreement.what());
        }
    }
    session.end(expect_answer(told.back()));
}
