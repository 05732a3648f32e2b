// A second way to price, in parts that can be exchanged for others: literals by the values in the session, rounding by remainders.
#pragma once
#include <algorithm>
#include <cstddef>
#include <cstdint>
#include <functional>
#include <initializer_list>
#include <optional>
#include <vector>

#include "due.hpp"

namespace methods {

// A line and the state of its literal.
struct Stated {
    Line line;
    State state;
};

using Lines = std::vector<Stated>;

// What is found of a call before it is answered.
struct Found {
    Lines lines{};  // in the order in which they apply
    uint64_t examination = 0;  // the refusal of the trail, or 0
    bool conflict = false, bad_base = false, bad_list = false;
    std::optional<size_t> bad_line, beyond_line;  // the first ones
    bool beyond_at_end = false;
    Wide amount = 0;

    bool out_of_range() const { return bad_base || bad_list || bad_line; }
};

// Each refusal where its cause is found, or 0.
inline uint64_t answer_14(const Found& found) { return found.conflict ? 14 : 0; }
inline uint64_t answer_19(const Found& found) { return found.out_of_range() ? 19 : 0; }
inline uint64_t answer_20(const Found& found) { return found.beyond_line ? 20 : 0; }

// The first of these that is not 0.
inline uint64_t first_of(std::initializer_list<uint64_t> numbers) {
    auto found = std::find_if(numbers.begin(), numbers.end(), [](uint64_t number) { return number != 0; });
    return found == numbers.end() ? 0 : *found;
}

inline uint64_t count_states(const Lines& lines, State state) {
    return static_cast<uint64_t>(std::count_if(lines.begin(), lines.end(), [&](const Stated& one) { return one.state == state; }));
}

// A call in its parts; as they stand here they are right.
struct Recipe {
    std::function<Lines(Lines)> order = [](Lines lines) { return lines; };
    std::function<bool(const Stated&)> applies = [](const Stated& one) { return one.state == State::TRUE; };
    std::function<Wide(Wide running, Wide base, int32_t part)> change = [](Wide running, Wide, int32_t part) {
        return running + half_away()(running * part);
    };
    std::function<Wide(int32_t cents)> cents = [](int32_t cents) { return cents; };
    std::function<bool(Wide running, const Stated&)> within = [](Wide running, const Stated&) { return size(running) <= 1000000000000; };
    std::function<bool(int64_t base)> base = [](int64_t base) { return base >= 0 && base <= 1000000000; };
    std::function<bool(size_t numbers)> length = [](size_t numbers) { return numbers % 3 == 0 && numbers <= 600; };
    std::function<bool(int32_t literal, int32_t variables)> literal = [](int32_t literal, int32_t variables) {
        return literal > 1 && literal / 2 <= variables;
    };
    std::function<bool(int32_t kind)> kind = [](int32_t kind) { return kind == 0 || kind == 1; };
    std::function<bool(int32_t kind, int32_t value)> value = [](int32_t kind, int32_t value) { return size(value) <= (kind == 0 ? 10000000 : 1000); };
    std::function<bool(const Stated&)> looked_at = [](const Stated&) { return true; };
    std::function<uint64_t(const Lines&)> count = [](const Lines& lines) { return count_states(lines, State::OPEN); };
    std::function<uint64_t(const Found&)> refusal = [](const Found& found) {
        return first_of({found.examination, answer_14(found), answer_19(found), answer_20(found)});
    };
};

// By the value of the variable in a session that passes, by docs/LAYOUT.md.
inline State state_by_value(const Lending& lent, int32_t literal) {
    if (literal < 2 || literal / 2 > lent.variables()) return State::OPEN;
    uint32_t value = lent.session.memory[HEADER + 2 * static_cast<size_t>(lent.variables()) + static_cast<size_t>(literal / 2) - 1];
    return value == 0 ? State::OPEN : value % 2 == static_cast<uint32_t>(literal % 2) ? State::TRUE : State::FALSE;
}

inline bool fits(const Recipe& recipe, const Stated& one, int32_t variables) {
    const Line& line = one.line;
    return !recipe.looked_at(one) || (recipe.literal(line.literal, variables) && recipe.kind(line.kind) && recipe.value(line.kind, line.value));
}

// One line, however far from zero the amount is; what is farther than this stays there.
inline Wide apply(const Recipe& recipe, Wide running, const Lending& lent, const Stated& one) {
    constexpr Wide FAR = Wide{1} << 80;
    if (!recipe.applies(one)) return running;
    Wide next = one.line.kind == AMOUNT ? running + recipe.cents(one.line.value) : recipe.change(running, lent.base, one.line.value);
    return std::clamp(next, -FAR, FAR);
}

inline void apply_all(const Recipe& recipe, const Lending& lent, Found& found) {
    for (size_t i = 0; i < found.lines.size(); i++) {
        if (!found.bad_line && !fits(recipe, found.lines[i], lent.variables())) found.bad_line = i;
        found.amount = apply(recipe, found.amount, lent, found.lines[i]);
        found.beyond_at_end = !recipe.within(found.amount, found.lines[i]);
        if (!found.beyond_line && found.beyond_at_end) found.beyond_line = i;
    }
}

// From such an amount on.
inline Found find_from(Wide start, const Recipe& recipe, const Lending& lent) {
    Found found;
    Numbers trail;
    uint64_t answer = copy_trail(lent, trail);
    found.bad_base = !recipe.base(lent.base);
    found.bad_list = !recipe.length(lent.rates.length);
    if (tariff_kind(answer) == TARIFF_REFUSED) {
        found.examination = tariff_number(answer);
        return found;
    }
    found.conflict = lent.session.memory[CONFLICT] != 0;
    for (const Line& line : lent.lines()) found.lines.push_back({line, state_by_value(lent, line.literal)});
    found.lines = recipe.order(found.lines);
    found.amount = start;
    apply_all(recipe, lent, found);
    return found;
}

inline uint64_t price_by(const Recipe& recipe, Lending& lent) {
    Found found = find_from(lent.base, recipe, lent);
    uint64_t refusal = recipe.refusal(found);
    if (refusal != 0) return c_refusal(refusal);
    lent.amount() = static_cast<int64_t>(found.amount);
    return recipe.count(found.lines);
}

inline Method by(const Recipe& recipe) {
    return [recipe](Lending& lent) { return price_by(recipe, lent); };
}

}  // namespace methods
