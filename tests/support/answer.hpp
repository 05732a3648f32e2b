// The lines that `desk` prints, by the grammar of document 01: each is read into an answer and must be just what the answer prints.
#pragma once
#include <cstdint>
#include <optional>
#include <sstream>
#include <string>
#include <vector>

struct Answer {
    enum Kind { IMPLIED, CONFLICT, BACK, REFUSED, END };
    Kind kind = REFUSED;
    int decision = 0;          // 0 at the opening
    std::vector<int> implied;  // in trail order
    int clause = 0;            // the conflict clause
    int number = 0;            // of a refusal; of decisions taken back
    uint64_t decisions = 0, backtracks = 0, checks = 0;
};

inline std::string print(const Answer& answer) {
    std::ostringstream line;
    if (answer.kind == Answer::BACK) line << "back " << answer.number;
    if (answer.kind == Answer::REFUSED) line << "refused " << answer.number;
    if (answer.kind == Answer::END)
        line << "end choices " << answer.decisions << " backs " << answer.backtracks << " checks " << answer.checks;
    if (answer.kind != Answer::IMPLIED && answer.kind != Answer::CONFLICT) return line.str();
    if (answer.decision == 0)
        line << "open";
    else
        line << "choose " << answer.decision;
    if (answer.kind == Answer::CONFLICT) {
        line << " rule " << answer.clause;
        return line.str();
    }
    line << " forced " << answer.implied.size() << ":";
    for (int literal : answer.implied) line << " " << literal;
    return line.str();
}

// What stands behind `open` or `choose F`.
inline void read_propagation(std::istream& words, Answer& answer) {
    std::string word;
    words >> word;
    answer.kind = word == "rule" ? Answer::CONFLICT : Answer::IMPLIED;
    if (answer.kind == Answer::CONFLICT) {
        words >> answer.clause;
        return;
    }
    words >> word;
    for (int literal; words >> literal;) answer.implied.push_back(literal);
}

inline std::optional<Answer> parse_answer(const std::string& line) {
    std::istringstream words(line);
    std::string word;
    Answer answer;
    words >> word;
    if (word == "choose") words >> answer.decision;
    if (word == "open" || word == "choose") read_propagation(words, answer);
    if (word == "back") answer.kind = Answer::BACK;
    if (word == "back" || word == "refused") words >> answer.number;
    if (word == "end") {
        answer.kind = Answer::END;
        words >> word >> answer.decisions >> word >> answer.backtracks >> word >> answer.checks;
    }
    if (print(answer) != line) return std::nullopt;
    return answer;
}
