// What K1 asks of a call that prices, by the literals that `tariff_trail_from` writes, and the comparison with what the call answered and left.
#pragma once
#include <algorithm>
#include <cstddef>
#include <cstdint>
#include <functional>
#include <optional>
#include <string>
#include <vector>

#include "lending.hpp"
#include "rounding.hpp"

constexpr size_t MAX_LINES = 200;
constexpr int64_t MAX_AMOUNT = 10000000, MAX_THOUSANDTHS = 1000, MAX_BASE = 1000000000, MAX_RUNNING = 1000000000000;

// A way to price: the library's call, or another one in its place; and so for the trail and the rounding that it is compared with.
using Method = std::function<uint64_t(Lending&)>;

struct Ways {
    Method price = by_library;
    std::function<uint64_t(const Lending&, Numbers&)> trail = copy_trail;
    Rounding rounding = by_llroundl;
};

enum class State { OPEN, TRUE, FALSE };

struct Due {
    uint64_t answer = 0;
    int64_t amount = 0;  // as it is afterwards
    std::vector<State> states{};      // of each line's literal
    std::vector<int64_t> products{};  // of the changes in thousandths that applied
    std::vector<int64_t> running{};   // after each line

    bool refused() const { return tariff_kind(answer) == TARIFF_REFUSED; }
};

inline bool is_between(int64_t number, int64_t least, int64_t most) { return number >= least && number <= most; }

inline bool is_within(const Line& line, int32_t variables) {
    if (!is_between(line.literal, 2, 2 * variables + 1)) return false;
    if (line.kind == AMOUNT) return is_between(line.value, -MAX_AMOUNT, MAX_AMOUNT);
    return line.kind == THOUSANDTHS && is_between(line.value, -MAX_THOUSANDTHS, MAX_THOUSANDTHS);
}

// Of 19: the base, a list that is no whole number of lines or too long, and each line.
struct Faults {
    bool base, part_of_a_line, long_list;
    std::vector<Line> lines{};  // those outside their ranges

    explicit Faults(const Lending& lent)
        : base(!is_between(lent.base, 0, MAX_BASE)), part_of_a_line(lent.rates.length % LINE != 0), long_list(lent.rates.length > LINE * MAX_LINES) {
        for (const Line& line : lent.lines())
            if (!is_within(line, lent.variables())) lines.push_back(line);
    }

    size_t count() const { return size_t{base} + size_t{part_of_a_line} + size_t{long_list} + lines.size(); }
};

inline bool is_true(const Numbers& trail, int32_t literal) { return std::find(trail.begin(), trail.end(), static_cast<uint32_t>(literal)) != trail.end(); }

inline State state_of(const Numbers& trail, int32_t literal) {
    return is_true(trail, literal) ? State::TRUE : is_true(trail, literal ^ 1) ? State::FALSE : State::OPEN;
}

// The lines in their order from this amount on, until it is too far from zero.
inline Due apply_lines(int64_t running, const Lending& lent, const Numbers& trail, const Rounding& rounding) {
    Due due;
    bool within = true;
    for (const Line& line : lent.lines()) {
        due.states.push_back(state_of(trail, line.literal));
        if (due.states.back() == State::TRUE && line.kind == THOUSANDTHS) due.products.push_back(running * line.value);
        if (due.states.back() == State::TRUE) running += line.kind == AMOUNT ? line.value : static_cast<int64_t>(rounding(due.products.back()));
        due.running.push_back(running);
        within = is_between(running, -MAX_RUNNING, MAX_RUNNING);
        if (!within) break;
    }
    due.answer = within ? static_cast<uint64_t>(std::count(due.states.begin(), due.states.end(), State::OPEN)) : c_refusal(20);
    due.amount = within ? running : lent.amount();
    return due;
}

inline Due due_of(const Lending& lent, const Ways& ways = {}) {
    Numbers trail;
    uint64_t answer = ways.trail(lent, trail);
    if (tariff_kind(answer) == TARIFF_REFUSED) return {answer, lent.amount()};
    if (in_conflict(lent)) return {c_refusal(14), lent.amount()};
    if (Faults(lent).count() > 0) return {c_refusal(19), lent.amount()};
    return apply_lines(lent.base, lent, trail, ways.rounding);
}

inline void compare_amount(int64_t seen, int64_t expected, const std::string& name) {
    expect(seen == expected, name + " is " + std::to_string(seen) + ", must be " + std::to_string(expected));
}

// What is due is held to the number by which the examination refuses, 0 where it does not, if that is known.
inline void compare_refusal(const Due& due, std::optional<uint64_t> refusal) {
    bool examined_out = due.answer == c_refusal(11) || due.answer == c_refusal(12);
    if (refusal) compare_number(examined_out ? tariff_number(due.answer) : 0, *refusal, "refusal of the trail", 0);
}

// What a call answered and left. The disagreement begins with the name of what differs.
inline void compare_call(uint64_t answer, const Lending& lent, const Lending& before, const Due& due) {
    compare_number(answer, due.answer, "answer with list numbers", lent.rates.length);
    compare_amount(lent.amount(), due.amount, "amount");
    for (size_t i : {0, 2}) compare_number(lent.amounts[i], before.amounts[i], "number beside the amount", i);
    compare_memory(lent.book.memory, before.book.memory, "number of the book");
    compare_memory(lent.session.memory, before.session.memory, "number of the session");
    compare_memory(lent.rates.memory, before.rates.memory, "number of the list");
}

// A call in one of these ways. Answers what was due.
inline Due compare_price(Lending lent, std::optional<uint64_t> refusal, const Ways& ways) {
    const Lending before = lent;
    Due due = due_of(lent, ways);
    compare_refusal(due, refusal);
    for (int64_t product : due.products) compare_rounding(product, ways.rounding);
    uint64_t answer = ways.price(lent);
    compare_call(answer, lent, before, due);
    return due;
}
