// Compares what `desk` prints and what the library answers and leaves with a run.
#pragma once
#include <cstddef>
#include <cstdint>
#include <string>
#include <vector>

#include "../support/answer.hpp"
#include "../support/command.hpp"
#include "../support/library.hpp"
#include "../support/loan.hpp"
#include "numbers.hpp"
#include "run.hpp"

// The answer of a run to a line of a script.
inline Answer answer_line(Run& run, const std::string& line) {
    Command command = parse_command(line);
    if (command.kind == Command::DECIDE) return run.decide(literal_number(command.number));
    if (command.kind == Command::BACKTRACK) return run.backtrack(static_cast<uint32_t>(command.number));
    Answer malformed;
    malformed.number = 18;
    return malformed;
}

// What `desk` has to print; `visit(run, answer)` is called after the opening and after each line.
template <class Visit>
std::vector<std::string> expected_lines(Run& run, const std::string& script, Visit visit) {
    std::vector<std::string> expected;
    auto put = [&](const Answer& answer) {
        visit(run, answer);
        expected.push_back(print(answer));
    };
    put(run.open());
    for (const std::string& line : lines_of(script)) put(answer_line(run, line));
    expected.push_back(print(run.end()));
    return expected;
}

inline void compare_lines(const std::vector<std::string>& expected, const std::string& output) {
    expect(!output.empty() && output.back() == '\n', "the last byte printed is not 10");
    std::vector<std::string> told = lines_of(output);
    for (size_t i = 0; i < expected.size() && i < told.size(); i++)
        if (told[i] != expected[i])
            throw Disagreement("answer " + std::to_string(i) + " is `" + told[i].substr(0, 200) + "`, must be `" + expected[i].substr(0, 200) + "`");
    expect(told.size() == expected.size(), std::to_string(told.size()) + " answers, must be " + std::to_string(expected.size()));
}

// Every number that was lent; what lies behind the parts is as it was before. How many the parts are.
inline size_t compare_numbers(const Numbers& numbers, const std::vector<Part>& parts, const Numbers& before) {
    size_t at = 0;
    for (const Part& part : parts) {
        expect(part.numbers.size() <= numbers.size() - at, "fewer numbers than needed: " + part.name);
        for (size_t i = 0; i < part.numbers.size(); i++, at++) compare_number(numbers[at], part.numbers[i], part.name, i);
    }
    size_t needed = at;
    for (; at < numbers.size(); at++) compare_number(numbers[at], before[at], "behind the need: number", at);
    return needed;
}

// An answer as a C call gives it.
inline uint64_t c_answer(const Answer& answer) {
    uint64_t kind = answer.kind == Answer::CONFLICT ? TARIFF_CONFLICT : answer.kind == Answer::REFUSED ? TARIFF_REFUSED : TARIFF_ACCEPTED;
    uint64_t number = answer.kind == Answer::CONFLICT   ? static_cast<uint64_t>(answer.clause)
                      : answer.kind == Answer::REFUSED ? static_cast<uint64_t>(answer.number)
                                                       : answer.implied.size();
    return kind << 32 | number;
}

// What the library has to answer to a call.
inline uint64_t answer_call(Run& run, const Call& call) {
    if (call.kind == Call::DECIDE) return c_answer(run.decide(call.number));
    if (call.kind == Call::BACKTRACK) return c_answer(run.backtrack(call.number));
    int refusal = run.fix(call.number);
    return refusal == 0 ? 0 : c_refusal(static_cast<uint64_t>(refusal));
}

// A book needs C + L + 4 numbers, of the clauses as they are read; in one fewer it is refused by 10.
inline void compare_room(Random& random, const Formula& formula, const std::string& text) {
    const uint8_t* bytes = reinterpret_cast<const uint8_t*>(text.data());
    size_t needed = static_cast<size_t>(clause_count(formula) + literal_count(formula)) + 4;
    Lent enough(random, needed), few(random, needed - 1);
    compare_number(tariff_read(bytes, text.size(), enough.numbers.data(), needed), 0, "reading in numbers", needed);
    compare_numbers(enough.numbers, book_parts(formula), enough.before);
    compare_number(tariff_read(bytes, text.size(), few.numbers.data(), needed - 1), c_refusal(10), "reading in numbers", needed - 1);
    compare_numbers(few.numbers, {}, few.before);
}
