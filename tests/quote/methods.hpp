// Other ways to quote than the library's call: wrong ones, each with the name of what must notice it, and right ones.
#pragma once
#include <algorithm>
#include <cstddef>
#include <cstdint>
#include <functional>
#include <optional>
#include <regex>
#include <string>
#include <utility>
#include <vector>

#include "../support/call_then.hpp"
#include "../support/command.hpp"
#include "claim.hpp"

namespace methods {

using Line = std::function<bool(const std::string&)>;

inline bool is_back(const std::string& line) { return parse_command(line).kind == Command::BACKTRACK; }

inline uint64_t count_lines(const std::vector<std::string>& lines, const Line& counts) {
    return static_cast<uint64_t>(std::count_if(lines.begin(), lines.end(), counts));
}

// A quote in its parts; as they stand here they are right.
struct Recipe {
    std::function<uint64_t(uint64_t)> clause = [](uint64_t n) { return n < 2 ? 0 : 2 * n - 3; };
    std::function<uint64_t(uint64_t, uint64_t)> length = [](uint64_t variables, uint64_t clauses) { return 5 * (variables + clauses + 1) + clauses; };
    std::function<uint64_t(const Lending&)> backs = [](const Lending& lent) { return back_lines(lent.lines()); };
    std::function<uint64_t(uint64_t, uint64_t)> ceiling = [](uint64_t worst, uint64_t backs) { return worst + worst * backs; };
    std::function<uint64_t(const Lending&, uint64_t)> refusal = [](const Lending& lent, uint64_t backs) -> uint64_t {
        return !formula_of(lent.book) ? 11 : backs > 1000000 ? 17 : 0;
    };
};

inline uint64_t quote_by(const Recipe& recipe, Lending& lent) {
    uint64_t backs = recipe.backs(lent), refusal = recipe.refusal(lent, backs), worst = 0;
    if (refusal != 0) return c_refusal(refusal);
    const Numbers& book = lent.book.memory;
    for (size_t i = 3; i < 3 + size_t{book[1]}; i++) worst += recipe.clause(book[i + 1] - book[i]);
    Numbers quoted{static_cast<uint32_t>(recipe.length(book[0], book[1])), static_cast<uint32_t>(worst), static_cast<uint32_t>(backs)};
    for (size_t i = 0; i < std::min(QUOTED, lent.out.length); i++) lent.out.memory[i] = quoted[i];
    lent.ceiling = recipe.ceiling(worst, backs);
    return QUOTED;
}

inline Method by(const Recipe& recipe) {
    return [recipe](Lending& lent) { return quote_by(recipe, lent); };
}

// The recipe with one part of it another.
template <class Part, class Other>
Method with(Part Recipe::*part, Other other) {
    Recipe recipe;
    recipe.*part = other;
    return by(recipe);
}

template <class Backs>
Method backs_as(Backs backs) {
    return with(&Recipe::backs, backs);
}

// The lines are taken out of the script otherwise.
template <class Lines>
Method lines_as(Lines lines) {
    return backs_as([lines](const Lending& lent) { return count_lines(lines(lent.lines()), is_back); });
}

// A line is counted by another test.
template <class Test>
Method line_counts(Test test) {
    return backs_as([test](const Lending& lent) { return count_lines(lines_of(lent.lines()), test); });
}

// A line is changed before it is read.
template <class Change>
Method line_as(Change change) {
    return line_counts([change](std::string line) {
        change(line);
        return is_back(line);
    });
}

// The library's call; then what it answered and left is changed, by what was lent before.
template <class Change>
Method then(Change change) {
    return call_then(by_library, change);
}

// The same where it quotes.
template <class Change>
Method where_quoted(Change change) {
    return call_then_where(by_library, [](uint64_t answer) { return answer == QUOTED; }, change);
}

// The same where it refuses by this number.
template <class Change>
Method where_refused(uint64_t number, Change change) {
    auto refused = [number](uint64_t answer) { return answer == c_refusal(number); };
    return call_then_where(by_library, refused, [change](Lending& lent, const Lending&) { change(lent); });
}

template <class Change>
Method answer_as(Change change) {
    return then([change](uint64_t answer, Lending&, const Lending& before) -> uint64_t { return change(answer, before); });
}

inline void replace(std::string& line, const std::string& from, const std::string& to) {
    size_t place = line.find(from);
    if (place != std::string::npos) line.replace(place, from.size(), to);
}

inline void cut_at(std::string& text, char byte) { text.resize(std::min(text.find(byte), text.size())); }

// How many take-backs a session accepts when the script is run on the book.
inline uint64_t accepted_backs(const Lending& lent) {
    std::optional<Formula> formula = formula_of(lent.book);
    if (!formula) return 0;
    RunEngine engine{Run(*formula)};
    follow_script(engine, lent.lines(), {0, {}, ~uint64_t{0}, 0, uint64_t{1} << 32, 0});
    return engine.run.backtracks;
}

// The lines in front of the first of which this holds.
template <class Stops>
auto lines_up_to(Stops stops) {
    return [stops](const std::string& script) {
        std::vector<std::string> lines = lines_of(script);
        lines.erase(std::find_if(lines.begin(), lines.end(), stops), lines.end());
        return lines;
    };
}

inline std::vector<std::string> closed_lines(const std::string& script) {
    return lines_of(script.substr(0, script.rfind('\n') + 1));
}

inline std::vector<std::string> without_first(const std::string& script) {
    std::vector<std::string> lines = lines_of(script);
    if (!lines.empty()) lines.erase(lines.begin());
    return lines;
}

inline std::vector<std::string> lines_by_13(std::string script) {
    std::replace(script.begin(), script.end(), '\r', '\n');
    return lines_of(script);
}

inline std::vector<std::string> lines_by_0(std::string script) {
    cut_at(script, '\0');
    return lines_of(script);
}

inline bool is_malformed(const std::string& line) { return parse_command(line).kind == Command::MALFORMED; }

inline uint64_t backs_of_memory(const Lending& lent) { return back_lines(std::string(lent.script.memory.begin(), lent.script.memory.end())); }

struct Named {
    std::string name, part;  // the part is how the disagreement begins
    Method quote;
};

using List = std::vector<Named>;

// Wrong in W, in the length or in the ceiling.
inline List wrong_numbers() {
    using Number = uint64_t;
    return {
        {"2 n - 2 checks a rule", "place 1", with(&Recipe::clause, [](Number n) { return n < 2 ? 0 : 2 * n - 2; })},
        {"2 n - 4", "place 1", with(&Recipe::clause, [](Number n) { return n < 2 ? 0 : 2 * n - 4; })},
        {"n - 2", "place 1", with(&Recipe::clause, [](Number n) { return n < 2 ? 0 : n - 2; })},
        {"rules of one literal counted", "place 1", with(&Recipe::clause, [](Number n) { return n == 1 ? 1 : n < 2 ? 0 : 2 * n - 3; })},
        {"rules of no literal counted", "place 1", with(&Recipe::clause, [](Number n) { return n == 0 ? 1 : n < 2 ? 0 : 2 * n - 3; })},
        {"2 n - 3 below 2 literals, too", "place 1", with(&Recipe::clause, [](Number n) { return 2 * n - 3; })},
        {"rules of two literals left out", "place 1", with(&Recipe::clause, [](Number n) { return n < 3 ? 0 : 2 * n - 3; })},
        {"n in 7 bits", "place 1", with(&Recipe::clause, [](Number n) { return n % 128 < 2 ? 0 : 2 * (n % 128) - 3; })},
        {"length by 6 V", "place 0", with(&Recipe::length, [](Number variables, Number clauses) { return 5 + 6 * variables + 6 * clauses; })},
        {"length without the fixed", "place 0", with(&Recipe::length, [](Number variables, Number clauses) { return 4 + 5 * variables + 6 * clauses; })},
        {"length by 5 C", "place 0", with(&Recipe::length, [](Number variables, Number clauses) { return 5 + 5 * variables + 5 * clauses; })},
        {"ceiling W x b", "ceiling", with(&Recipe::ceiling, [](Number worst, Number backs) { return worst * backs; })},
        {"ceiling W x (b + 2)", "ceiling", with(&Recipe::ceiling, [](Number worst, Number backs) { return worst * (backs + 2); })},
        {"ceiling W x b + 1", "ceiling", with(&Recipe::ceiling, [](Number worst, Number backs) { return worst * backs + 1; })},
        {"ceiling of the opening alone", "ceiling", with(&Recipe::ceiling, [](Number worst, Number) { return worst; })},
    };
}

// One to ten digits.
inline bool has_digits(const std::string& line) {
    return is_back(line) || (line.size() == 12 && is_back(line.substr(0, 11)) && is_back("b " + line.substr(3)));
}

inline bool is_back_unparted(const std::string& line) { return is_back(line) || (line[0] == 'b' && is_back("b " + line.substr(1))); }

// Wrong in which lines count.
inline List wrong_lines() {
    using Text = std::string;
    const Text part = "place 2";
    return {
        {"choices counted", part, line_counts([](const Text& line) { return parse_command(line).kind != Command::MALFORMED; })},
        {"all lines counted", part, line_counts([](const Text&) { return true; })},
        {"malformed lines counted", part, line_counts([](const Text& line) { return parse_command(line).kind != Command::DECIDE; })},
        {"b 0 not counted", part, line_counts([](const Text& line) { return is_back(line) && parse_command(line).number != 0; })},
        {"only accepted take-backs", part, backs_as(accepted_backs)},
        {"all that begins with b", part, line_counts([](const Text& line) { return line[0] == 'b'; })},
        {"`b  1` counted", part, line_as([](Text& line) { replace(line, "  ", " "); })},
        {"`b1` counted", part, line_counts(is_back_unparted)},
        {"a blank in front", part, line_as([](Text& line) { line.erase(0, line.find_first_not_of(' ')); })},
        {"a blank behind", part, line_as([](Text& line) { line.resize(line.find_last_not_of(' ') + 1); })},
        {"a byte 13 behind", part, line_as([](Text& line) { line.resize(line.find_last_not_of('\r') + 1); })},
        {"a tab for the blank", part, line_as([](Text& line) { replace(line, "\t", " "); })},
        {"B for b", part, line_as([](Text& line) { replace(line, "B", "b"); })},
        {"`b -1` counted", part, line_as([](Text& line) { replace(line, "b -", "b "); })},
        {"`b +1` counted", part, line_as([](Text& line) { replace(line, "b +", "b "); })},
        {"no digit needed", part, line_counts([](const Text& line) { return is_back(line) || line == "b "; })},
        {"ten digits counted", part, line_counts(has_digits)},
        {"nine digits not counted", part, line_counts([](const Text& line) { return is_back(line) && line.size() < 11; })},
        {"one digit only", part, line_counts([](const Text& line) { return is_back(line) && line.size() == 3; })},
        {"leading zeros not counted", part, line_counts([](const Text& line) { return is_back(line) && (line[2] != '0' || line.size() == 3); })},
        {"more than nine digits cut off", part, line_as([](Text& line) { line.resize(std::min(line.size(), size_t{11})); })},
        {"byte 0 ends a line", part, line_as([](Text& line) { cut_at(line, '\0'); })},
        {"`:` taken for a digit", part, line_as([](Text& line) { replace(line, ":", "0"); })},
        {"`/` taken for a digit", part, line_as([](Text& line) { replace(line, "/", "0"); })},
        {"length in 8 bits", part, line_as([](Text& line) { line.resize(line.size() % 256); })},
        {"length in 16 bits", part, line_as([](Text& line) { line.resize(line.size() % 65536); })},
        {"digits in 7 bits", part, line_as([](Text& line) { replace(line, "\xb0", "0"); })},
    };
}

// Wrong in where lines and the script end.
inline List wrong_ends() {
    using Text = std::string;
    const Text part = "place 2";
    return {
        {"the last line without its end dropped", part, lines_as(closed_lines)},
        {"the first line dropped", part, lines_as(without_first)},
        {"byte 13 ends a line", part, lines_as(lines_by_13)},
        {"byte 0 ends the script", part, lines_as(lines_by_0)},
        {"an empty line ends the script", part, lines_as(lines_up_to([](const Text& line) { return line.empty(); }))},
        {"a malformed line ends the script", part, lines_as(lines_up_to(is_malformed))},
        {"a line over 255 bytes ends the script", part, lines_as(lines_up_to([](const Text& line) { return line.size() > 255; }))},
        {"bytes behind the script read", part, backs_as(backs_of_memory)},
    };
}

inline bool is_short(const Lending& lent) { return lent.out.length < QUOTED; }

// By V and C alone.
inline uint64_t glance(const Lending& lent, uint64_t) {
    const Numbers& book = lent.book.memory;
    return lent.book.length < 3 || book[0] - 1 >= MAX_VARIABLES || book[1] > MAX_CLAUSES ? 11 : 0;
}

// Wrong in the answer.
inline List wrong_answers() {
    using Code = uint64_t;
    auto fitting = [](Code code, const Lending& lent) { return code == QUOTED ? std::min(QUOTED, lent.out.length) : code; };
    auto too_few = [](Code code, const Lending& lent) { return code == QUOTED && is_short(lent) ? c_refusal(10) : code; };
    auto long_book = [](Code code, const Lending& lent) { return lent.book.length > TARIFF_BOOK ? c_refusal(11) : code; };
    return {
        {"the places that fit answered", "answer", answer_as(fitting)},
        {"10 for too few places", "answer", answer_as(too_few)},
        {"12 for 11", "answer", answer_as([](Code code, const Lending&) { return code == c_refusal(11) ? c_refusal(12) : code; })},
        {"0 for 3", "answer", answer_as([](Code code, const Lending&) { return code == QUOTED ? 0 : code; })},
        {"11 for more numbers than a book needs", "answer", answer_as(long_book)},
        {"V and C examined alone", "answer", with(&Recipe::refusal, glance)},
    };
}

inline void clear_places(Lending& lent) { std::fill_n(lent.out.memory.begin(), std::min(QUOTED, lent.out.length), 0); }

inline void write_all(Lending& lent, const Lending&) {
    lent.out.length = QUOTED;
    by_library(lent);
}

inline void write_none_where_short(Lending& lent, const Lending& before) {
    if (is_short(lent)) lent.out.memory = before.out.memory;
}

inline void swap_places(Lending& lent, const Lending&) {
    if (lent.out.length > 1) std::swap(lent.out.memory[0], lent.out.memory[1]);
}

inline void keep_ceiling_where_short(Lending& lent, const Lending& before) {
    if (is_short(lent)) lent.ceiling = before.ceiling;
}

inline void clear_last(Lending& lent, const Lending&) {
    if (lent.out.length == 5) lent.out.memory[4] = 0;
}

// Wrong in what is written and what stays.
inline List wrong_places() {
    const std::string book = "number of the book", script = "byte of the script";
    return {
        {"places written where refused", "place", where_refused(11, clear_places)},
        {"the ceiling written where refused", "ceiling", where_refused(11, [](Lending& lent) { lent.ceiling ^= 1; })},
        {"three places written in any room", "place", where_quoted(write_all)},
        {"one place too many", "place 3", where_quoted([](Lending& lent, const Lending&) { lent.out.memory[3] ^= lent.out.length > 3 ? 1 : 0; })},
        {"the last place cleared", "place 4", where_quoted(clear_last)},
        {"one written behind the lent ones", "place", where_quoted([](Lending& lent, const Lending&) { lent.out.memory[lent.out.length] ^= 1; })},
        {"nothing written to fewer places", "place", where_quoted(write_none_where_short)},
        {"W before the length", "place 0", where_quoted(swap_places)},
        {"no ceiling for fewer places", "ceiling", where_quoted(keep_ceiling_where_short)},
        {"the ceiling added to what was there", "ceiling", where_quoted([](Lending& lent, const Lending& before) { lent.ceiling += before.ceiling; })},
        {"a number of the book changed", book, where_quoted([](Lending& lent, const Lending&) { lent.book.memory.back()++; })},
        {"a byte of the script changed", script, where_quoted([](Lending& lent, const Lending&) { lent.script.memory[lent.script.length / 2] ^= 32; })},
    };
}

// 11 comes first, and 17 behind so many lines.
inline Method limited(uint64_t most) {
    return with(&Recipe::refusal, [most](const Lending& lent, uint64_t backs) -> uint64_t { return !formula_of(lent.book) ? 11 : backs > most ? 17 : 0; });
}

inline uint64_t refused_by_lines_first(const Lending& lent, uint64_t backs) { return backs > MAX_BACK_LINES ? 17 : !formula_of(lent.book) ? 11 : 0; }

inline uint64_t refused_by_all_lines(const Lending& lent, uint64_t) {
    return !formula_of(lent.book) ? 11 : lines_of(lent.lines()).size() > MAX_BACK_LINES ? 17 : 0;
}

inline Method lines_in(int bits) {
    return backs_as([bits](const Lending& lent) { return back_lines(lent.lines()) % (uint64_t{1} << bits); });
}

// Wrong only for many lines.
inline List wrong_counts() {
    using Number = uint64_t;
    static constexpr Number FULL = 0xffffffffu;
    return {
        {"17 one early", "answer", limited(999999)},
        {"17 one late", "answer", limited(1000001)},
        {"17 from 2^20 + 1 on", "answer", limited(1 << 20)},
        {"17 never", "answer", limited(~Number{0})},
        {"17 before 11", "answer", with(&Recipe::refusal, refused_by_lines_first)},
        {"17 by all lines", "answer", with(&Recipe::refusal, refused_by_all_lines)},
        {"16 for 17", "answer", answer_as([](Number code, const Lending&) { return code == c_refusal(17) ? c_refusal(16) : code; })},
        {"lines in 16 bits", "place 2", lines_in(16)},
        {"lines in 20 bits", "answer", lines_in(20)},
        {"lines in 21 bits", "answer", lines_in(21)},
        {"ceiling in 32 bits", "ceiling", with(&Recipe::ceiling, [](Number worst, Number backs) { return worst * (backs + 1) & FULL; })},
        {"ceiling that stops at 32 bits", "ceiling", with(&Recipe::ceiling, [](Number worst, Number backs) { return std::min(worst * (backs + 1), FULL); })},
        {"places written where refused by 17", "place", where_refused(17, [](Lending& lent) { lent.out.memory[0] ^= 1; })},
        {"the ceiling written where refused by 17", "ceiling", where_refused(17, [](Lending& lent) { lent.ceiling ^= 1; })},
    };
}

inline List wrong_list() {
    List all = wrong_numbers();
    for (const List& more : {wrong_lines(), wrong_ends(), wrong_answers(), wrong_places()}) all.insert(all.end(), more.begin(), more.end());
    return all;
}

inline bool is_back_by_pattern(const std::string& line) {
    static const std::regex pattern("b [0-9]{1,9}");
    return std::regex_match(line, pattern);
}

inline List right_list() {
    return {{"in its parts", "", by(Recipe{})},
            {"lines by commands", "", line_counts(is_back)},
            {"lines by a pattern", "", line_counts(is_back_by_pattern)}};
}

}  // namespace methods
