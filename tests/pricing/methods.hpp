// Other ways to price than the library's call: wrong ones, each with the name of what must notice it, and right ones.
#pragma once
#include <algorithm>
#include <cmath>
#include <cstddef>
#include <cstdint>
#include <functional>
#include <initializer_list>
#include <iterator>
#include <limits>
#include <set>
#include <string>
#include <type_traits>
#include <utility>
#include <vector>

#include "../support/call_then.hpp"
#include "../support/named.hpp"
#include "recipe.hpp"

namespace methods {

// The recipe with one part of it another.
template <class Part>
Method with(Part Recipe::*part, const std::common_type_t<Part>& other) {
    Recipe recipe;
    recipe.*part = other;
    return by(recipe);
}

// The addend of a change in thousandths is another.
inline Method addend(const std::function<Wide(Wide running, Wide base, int32_t part)>& addend) {
    return with(&Recipe::change, [addend](Wide running, Wide base, int32_t part) -> Wide { return running + addend(running, base, part); });
}

// The library's call; where it is accepted, what it left is changed, by what was lent before.
template <class Change>
Method where_priced(Change change) {
    return call_then_where(by_library, [](uint64_t answer) { return tariff_kind(answer) == TARIFF_ACCEPTED; }, change);
}

// The library's call, and the amount is written where it refuses by this number.
inline Method written_where(uint64_t number) {
    auto refused = [number](uint64_t answer) { return answer == c_refusal(number); };
    return call_then_where(by_library, refused, [](Lending& lent, const Lending&) { lent.amount() ^= 1; });
}

// The library's call; then what it answered and left is changed, by what was lent before.
template <class Change>
Method then(Change change) {
    return call_then(by_library, change);
}

// The library's call, with another number for a refusal.
inline Method refusal_as(uint64_t number, uint64_t other) {
    return then([=](uint64_t answer, Lending&, const Lending&) { return answer == c_refusal(number) ? c_refusal(other) : answer; });
}

// The library's call; then what is accepted is refused by this number where this holds.
template <class Condition>
Method refused_where(uint64_t number, Condition condition) {
    return then([=](uint64_t answer, Lending& lent, const Lending& before) {
        if (tariff_kind(answer) == TARIFF_REFUSED || !condition(lent)) return answer;
        lent.amount() = before.amount();
        return c_refusal(number);
    });
}

using List = NamedList<Ways>;

// Ways to price that this part must notice.
inline List noticed_by(const std::string& part, std::initializer_list<std::pair<const char*, Method>> ways) {
    List list;
    for (const auto& [name, price] : ways) {
        list.push_back({name, part, {}});
        list.back().way.price = price;
    }
    return list;
}

// Wrong in the addend of a change in thousandths.
inline List wrong_changes() {
    const Rounding rounded = half_away();
    auto in_total = [rounded](Wide running, Wide, int32_t part) { return rounded(running * (Wide{1000} + part)); };
    auto by_factor = [](Wide running, Wide, int32_t part) { return std::llround(static_cast<double>(running) * (part / 1000.0)); };
    auto in_float = [](Wide running, Wide, int32_t part) { return std::llround(static_cast<float>(running) * static_cast<float>(part) / 1000.0f); };
    auto in_32_bits = [rounded](Wide running, Wide, int32_t part) { return rounded(static_cast<int32_t>(static_cast<uint32_t>(running * part))); };
    List list;
    for (const NamedRounding& wrong : wrong_roundings())
        append(list, noticed_by("amount", {{wrong.name.c_str(), addend([wrong](Wide running, Wide, int32_t part) {
                                              return wrong.rounding(running * part);
                                          })}}));
    append(list, noticed_by("amount", {
        {"the total rounded", with(&Recipe::change, in_total)},
        {"thousandths of the base", addend([rounded](Wide, Wide base, int32_t part) { return rounded(base * part); })},
        {"hundredths", addend([rounded](Wide running, Wide, int32_t part) { return rounded(running * part * 10); })},
        {"thousandths of the size", addend([rounded](Wide running, Wide, int32_t part) { return rounded(size(running) * part); })},
        {"the change alone", with(&Recipe::change, [rounded](Wide running, Wide, int32_t part) { return rounded(running * part); })},
        {"a factor in floating point", addend(by_factor)},
        {"24 bits of floating point", addend(in_float)},
        {"products in 32 bits", addend(in_32_bits)},
    }));
    return list;
}

inline bool is_positive(const Stated& one) { return one.line.literal % 2 == 0; }

// Each feature, or each literal, once: the lines in front of which there is none with the same number.
template <class Number>
Lines first_ones(const Lines& lines, Number number) {
    std::set<int32_t> met;
    Lines kept;
    std::copy_if(lines.begin(), lines.end(), std::back_inserter(kept), [&](const Stated& one) { return met.insert(number(one.line.literal)).second; });
    return kept;
}

inline Lines first_of_variables(const Lines& lines) {
    return first_ones(lines, [](int32_t literal) { return literal / 2; });
}

inline Lines first_of_literals(const Lines& lines) {
    return first_ones(lines, [](int32_t literal) { return literal; });
}

inline Lines amounts_first(Lines lines) {
    std::stable_partition(lines.begin(), lines.end(), [](const Stated& one) { return one.line.kind == AMOUNT; });
    return lines;
}

inline Lines backwards(Lines lines) {
    std::reverse(lines.begin(), lines.end());
    return lines;
}

inline Lines without_last(Lines lines) {
    if (!lines.empty()) lines.pop_back();
    return lines;
}

inline Lines without_first(Lines lines) {
    if (!lines.empty()) lines.erase(lines.begin());
    return lines;
}

inline bool applies_once(const Lines& lines, size_t i) {
    return std::none_of(lines.begin(), lines.begin() + static_cast<std::ptrdiff_t>(i),
                        [&](const Stated& one) { return one.line.literal / 2 == lines[i].line.literal / 2; });
}

// A second line of a feature stays in the list, and does nothing.
inline Lines apply_once(Lines lines) {
    for (size_t i = lines.size(); i-- > 0;)
        if (!applies_once(lines, i)) lines[i].line.value = 0;
    return lines;
}

// Wrong in which lines apply, and in what order.
inline List wrong_lines() {
    using One = Stated;
    return noticed_by("amount", {
        {"lines on open features apply", with(&Recipe::applies, [](const One& one) { return one.state != State::FALSE; })},
        {"lines on false literals apply", with(&Recipe::applies, [](const One& one) { return one.state != State::OPEN; })},
        {"all lines apply", with(&Recipe::applies, [](const One&) { return true; })},
        {"no line applies", with(&Recipe::applies, [](const One&) { return false; })},
        {"the opposite lines apply", with(&Recipe::applies, [](const One& one) { return one.state == State::FALSE; })},
        {"wanted ones alone apply", with(&Recipe::applies, [](const One& one) { return one.state == State::TRUE && is_positive(one); })},
        {"barred ones alone apply", with(&Recipe::applies, [](const One& one) { return one.state == State::TRUE && !is_positive(one); })},
        {"each feature applies once", with(&Recipe::order, apply_once)},
        {"the list reversed", with(&Recipe::order, backwards)},
        {"amounts first", with(&Recipe::order, amounts_first)},
        {"the last line left out", with(&Recipe::order, without_last)},
        {"the first line left out", with(&Recipe::order, without_first)},
        {"amounts without their sign", with(&Recipe::cents, [](int32_t cents) { return size(cents); })},
        {"amounts in 16 bits", with(&Recipe::cents, [](int32_t cents) { return static_cast<int16_t>(cents); })},
        {"amounts subtracted", with(&Recipe::cents, [](int32_t cents) { return -Wide{cents}; })},
    });
}

// Wrong in the number of lines whose feature is open.
inline List wrong_counts() {
    auto open_and = [](bool (*condition)(const Stated&)) {
        return [condition](const Lines& lines) {
            return static_cast<uint64_t>(
                std::count_if(lines.begin(), lines.end(), [&](const Stated& one) { return one.state == State::OPEN && condition(one); }));
        };
    };
    auto open = [](const Lines& lines) { return count_states(lines, State::OPEN); };
    return noticed_by("answer", {
        {"a feature counted once", with(&Recipe::count, [=](const Lines& lines) { return open(first_of_variables(lines)); })},
        {"a literal counted once", with(&Recipe::count, [=](const Lines& lines) { return open(first_of_literals(lines)); })},
        {"false lines counted as open", with(&Recipe::count, [=](const Lines& lines) { return open(lines) + count_states(lines, State::FALSE); })},
        {"false lines counted for open ones", with(&Recipe::count, [](const Lines& lines) { return count_states(lines, State::FALSE); })},
        {"lines that apply counted", with(&Recipe::count, [](const Lines& lines) { return count_states(lines, State::TRUE); })},
        {"wanted open ones counted", with(&Recipe::count, open_and(is_positive))},
        {"barred open ones counted", with(&Recipe::count, open_and([](const Stated& one) { return !is_positive(one); }))},
        {"open amounts counted", with(&Recipe::count, open_and([](const Stated& one) { return one.line.kind == AMOUNT; }))},
        {"all lines counted", with(&Recipe::count, [](const Lines& lines) { return lines.size(); })},
        {"open lines in 7 bits", with(&Recipe::count, [=](const Lines& lines) { return open(lines) % 128; })},
        {"one open line more", with(&Recipe::count, [=](const Lines& lines) { return open(lines) + 1; })},
        {"whether a line is open", with(&Recipe::count, [=](const Lines& lines) { return std::min(open(lines), uint64_t{1}); })},
    });
}

// Wrong in the range of the base, the literal and the list.
inline List wrong_ranges() {
    auto list_of = [](size_t lines) { return [lines](size_t numbers) { return numbers % LINE == 0 && numbers <= LINE * lines; }; };
    auto in_bits = [=](int bits) { return [=](size_t numbers) { return list_of(200)(numbers % (size_t{1} << bits)); }; };
    auto bases = [](int64_t least, int64_t most) { return [=](int64_t base) { return base >= least && base <= most; }; };
    auto literals = [](int32_t least, int32_t more) {
        return [=](int32_t literal, int32_t variables) { return literal >= least && literal <= 2 * variables + 1 + more; };
    };
    auto cut_literal = [](int32_t literal, int32_t variables) { return is_between(literal & 0xffff, 2, 2 * variables + 1); };
    auto any_sign = [](int32_t literal, int32_t variables) { return is_between(std::abs(int64_t{literal}), 2, 2 * variables + 1); };
    return noticed_by("answer", {
        {"200 lines refused", with(&Recipe::length, list_of(199))},
        {"201 lines accepted", with(&Recipe::length, list_of(201))},
        {"any number of lines accepted", with(&Recipe::length, [](size_t numbers) { return numbers % LINE == 0; })},
        {"over 300 lines accepted", with(&Recipe::length, [=](size_t numbers) { return list_of(200)(numbers) || (numbers % LINE == 0 && numbers > 900); })},
        {"the length in 8 bits", with(&Recipe::length, in_bits(8))},
        {"the length in 10 bits", with(&Recipe::length, in_bits(10))},
        {"the length in 16 bits", with(&Recipe::length, in_bits(16))},
        {"no lines refused", with(&Recipe::length, [=](size_t numbers) { return numbers != 0 && list_of(200)(numbers); })},
        {"a rest of one number dropped", with(&Recipe::length, [](size_t numbers) { return numbers % LINE != 2 && numbers <= 600; })},
        {"a rest of two numbers dropped", with(&Recipe::length, [](size_t numbers) { return numbers % LINE != 1 && numbers <= 600; })},
        {"base -1 accepted", with(&Recipe::base, bases(-1, MAX_BASE))},
        {"any base below 0 accepted", with(&Recipe::base, bases(std::numeric_limits<int64_t>::min(), MAX_BASE))},
        {"base 0 refused", with(&Recipe::base, bases(1, MAX_BASE))},
        {"the greatest base refused", with(&Recipe::base, bases(0, MAX_BASE - 1))},
        {"one cent more accepted", with(&Recipe::base, bases(0, MAX_BASE + 1))},
        {"the base in 32 bits", with(&Recipe::base, [=](int64_t base) { return bases(0, MAX_BASE)(static_cast<int32_t>(base)); })},
        {"the base without its sign", with(&Recipe::base, [](int64_t base) { return size(base) <= MAX_BASE; })},
        {"literal 1 accepted", with(&Recipe::literal, literals(1, 0))},
        {"literal 0 accepted", with(&Recipe::literal, literals(0, 0))},
        {"literal -1 accepted", with(&Recipe::literal, literals(-1, 0))},
        {"literals below 2 accepted", with(&Recipe::literal, literals(std::numeric_limits<int32_t>::min(), 0))},
        {"literal 2 refused", with(&Recipe::literal, literals(3, 0))},
        {"the last literal refused", with(&Recipe::literal, literals(2, -1))},
        {"literal 2 V + 2 accepted", with(&Recipe::literal, literals(2, 1))},
        {"literals of 500 features accepted", with(&Recipe::literal, [](int32_t literal, int32_t) { return is_between(literal, 2, 1001); })},
        {"literals in 16 bits", with(&Recipe::literal, cut_literal)},
        {"literals without their sign", with(&Recipe::literal, any_sign)},
    });
}

// Wrong in the range of a line's change, and in which lines are looked at.
inline List wrong_values() {
    auto values = [](int32_t amount, int32_t thousandths) {
        return [=](int32_t kind, int32_t value) { return size(value) <= (kind == AMOUNT ? amount : thousandths); };
    };
    auto below = [](int32_t kind, int32_t value) { return value <= (kind == AMOUNT ? MAX_AMOUNT : MAX_THOUSANDTHS); };
    auto above = [](int32_t kind, int32_t value) { return value >= -(kind == AMOUNT ? MAX_AMOUNT : MAX_THOUSANDTHS); };
    return noticed_by("answer", {
        {"the greatest amounts refused", with(&Recipe::value, values(MAX_AMOUNT - 1, MAX_THOUSANDTHS))},
        {"greater amounts accepted", with(&Recipe::value, values(MAX_AMOUNT + 1, MAX_THOUSANDTHS))},
        {"1,000 thousandths refused", with(&Recipe::value, values(MAX_AMOUNT, MAX_THOUSANDTHS - 1))},
        {"1,001 thousandths accepted", with(&Recipe::value, values(MAX_AMOUNT, MAX_THOUSANDTHS + 1))},
        {"thousandths as great as amounts", with(&Recipe::value, values(MAX_AMOUNT, MAX_AMOUNT))},
        {"amounts as small as thousandths", with(&Recipe::value, values(MAX_THOUSANDTHS, MAX_THOUSANDTHS))},
        {"values below the least accepted", with(&Recipe::value, below)},
        {"values above the greatest accepted", with(&Recipe::value, above)},
        {"kind 2 accepted", with(&Recipe::kind, [](int32_t kind) { return kind >= 0 && kind <= 2; })},
        {"kind -1 accepted", with(&Recipe::kind, [](int32_t kind) { return kind >= -1 && kind <= 1; })},
        {"all kinds accepted", with(&Recipe::kind, [](int32_t) { return true; })},
        {"kinds in 8 bits", with(&Recipe::kind, [](int32_t kind) { return (kind & 255) <= 1; })},
        {"amounts alone accepted", with(&Recipe::kind, [](int32_t kind) { return kind == AMOUNT; })},
        {"false lines not looked at", with(&Recipe::looked_at, [](const Stated& one) { return one.state != State::FALSE; })},
        {"open lines not looked at", with(&Recipe::looked_at, [](const Stated& one) { return one.state != State::OPEN; })},
        {"lines that apply not looked at", with(&Recipe::looked_at, [](const Stated& one) { return one.state != State::TRUE; })},
    });
}

// The line at which it is first known decides between 19 and 20.
inline uint64_t line_by_line(const Found& found) {
    bool beyond_first = found.beyond_line && !found.bad_base && !found.bad_list && (!found.bad_line || *found.beyond_line < *found.bad_line);
    return beyond_first ? 20 : answer_19(found);
}

// Wrong in the limit of the running amount, and in the order of the refusals.
inline List wrong_orders() {
    auto limit = [](Wide least, Wide most) { return [=](Wide running, const Stated&) { return running >= least && running <= most; }; };
    auto at_changes = [](Wide running, const Stated& one) { return one.line.kind == AMOUNT || size(running) <= MAX_RUNNING; };
    auto at_amounts = [](Wide running, const Stated& one) { return one.line.kind != AMOUNT || size(running) <= MAX_RUNNING; };
    auto refused = [](auto number) {
        return with(&Recipe::refusal, [=](const Found& found) { return first_of({found.examination, answer_14(found), number(found)}); });
    };
    auto sooner = [](const Found& found) { return first_of({answer_19(found), found.examination, answer_14(found), answer_20(found)}); };
    auto after_19 = [](const Found& found) { return first_of({found.examination, answer_19(found), answer_14(found), answer_20(found)}); };
    auto after_20 = [](const Found& found) { return first_of({found.examination, answer_19(found), answer_20(found), answer_14(found)}); };
    auto never = [](const Found& found) { return first_of({found.examination, answer_19(found), answer_20(found)}); };
    auto at_the_end = [](const Found& found) { return first_of({answer_19(found), found.beyond_at_end ? 20u : 0u}); };
    return noticed_by("answer", {
        {"19 judged line by line", refused(line_by_line)},
        {"20 before 19", refused([](const Found& found) { return first_of({answer_20(found), answer_19(found)}); })},
        {"20 judged at the end", refused(at_the_end)},
        {"the running limit one over", with(&Recipe::within, limit(-MAX_RUNNING - 1, MAX_RUNNING + 1))},
        {"the running limit refused", with(&Recipe::within, limit(-MAX_RUNNING + 1, MAX_RUNNING - 1))},
        {"20 above zero alone", with(&Recipe::within, limit(-(Wide{1} << 90), MAX_RUNNING))},
        {"20 below zero alone", with(&Recipe::within, limit(-MAX_RUNNING, Wide{1} << 90))},
        {"20 for any amount below zero", with(&Recipe::within, limit(0, MAX_RUNNING))},
        {"20 at changes alone", with(&Recipe::within, at_changes)},
        {"20 at amounts alone", with(&Recipe::within, at_amounts)},
        {"20 never", refused(answer_19)},
        {"19 never", refused(answer_20)},
        {"14 after 19", with(&Recipe::refusal, after_19)},
        {"14 after 20", with(&Recipe::refusal, after_20)},
        {"14 never", with(&Recipe::refusal, never)},
        {"19 before 11 and 12", with(&Recipe::refusal, sooner)},
        {"12 for 11", refusal_as(11, 12)},
        {"11 for 12", refusal_as(12, 11)},
        {"12 for 14", refusal_as(14, 12)},
        {"13 for 19", refusal_as(19, 13)},
        {"19 for 20", refusal_as(20, 19)},
        {"11 for more numbers than a book needs", refused_where(11, [](const Lending& lent) { return lent.book.length > TARIFF_BOOK; })},
        {"12 for more than a session needs", refused_where(12, [](const Lending& lent) { return lent.session.length > TARIFF_SESSION; })},
    });
}

inline bool is_20(uint64_t answer) { return answer == c_refusal(20); }

// The amount up to the line that is refused is written.
inline uint64_t write_up_to_20(uint64_t answer, Lending& lent, const Lending& before) {
    Lending shorter = before;
    while (is_20(answer) && is_20(by_library(shorter))) shorter.rates.length -= LINE;
    if (is_20(answer)) lent.amount() = shorter.amount();
    return answer;
}

// The line that stands behind a list of whole lines is read, too.
inline uint64_t read_behind(uint64_t answer, Lending& lent, const Lending& before) {
    if (before.rates.length % LINE != 0) return answer;
    Lending longer = before;
    longer.rates.length += LINE;
    answer = by_library(longer);
    lent.amount() = longer.amount();
    return answer;
}

// The library's call; then what is lent is changed, whatever was answered.
template <class Change>
Method left_as(Change change) {
    return call_then_where(by_library, [](uint64_t) { return true; }, [change](Lending& lent, const Lending&) { change(lent); });
}

// Wrong in what is written and what stays, and in what is read.
inline List wrong_memory() {
    List list = noticed_by("amount", {
        {"the amount written where refused by 11", written_where(11)},
        {"by 12", written_where(12)},
        {"by 14", written_where(14)},
        {"by 19", written_where(19)},
        {"by 20", written_where(20)},
        {"the amount up to 20 written", then(write_up_to_20)},
        {"nothing written", where_priced([](Lending& lent, const Lending& before) { lent.amount() = before.amount(); })},
        {"added to what was there", where_priced([](Lending& lent, const Lending& before) { lent.amount() ^= before.amount(); })},
        {"amounts below 0 written as 0", where_priced([](Lending& lent, const Lending&) { lent.amount() = std::max(lent.amount(), int64_t{0}); })},
        {"the amount in 32 bits", where_priced([](Lending& lent, const Lending&) { lent.amount() = static_cast<int32_t>(lent.amount()); })},
        {"one line more read", then(read_behind)},
    });
    append(list, noticed_by("number beside the amount", {
        {"the amount written twice", where_priced([](Lending& lent, const Lending&) { lent.amounts[2] = lent.amount(); })},
        {"the number before the amount changed", left_as([](Lending& lent) { lent.amounts[0] ^= 1; })},
    }));
    append(list, noticed_by("number of the book", {{"a number of the book changed", left_as([](Lending& lent) { lent.book.memory.back()++; })}}));
    append(list, noticed_by("number of the session", {{"a number of the session changed", left_as([](Lending& lent) { lent.session.memory.back()++; })}}));
    append(list, noticed_by("number of the list", {{"a number of the list changed", left_as([](Lending& lent) { lent.rates.memory.back()++; })}}));
    return list;
}

// Wrong in what the call is compared with: the trail that is refused as the call is, and the rounding.
inline List wrong_others() {
    Ways eleven, even;
    auto as_12 = [](uint64_t answer) { return answer == c_refusal(11) ? c_refusal(12) : answer; };
    eleven.trail = [=](const Lending& lent, Numbers& trail) { return as_12(copy_trail(lent, trail)); };
    eleven.price = refusal_as(11, 12);
    even.rounding = wrong_roundings().front().rounding;
    return {{"the trail and the call refused by 12 for 11", "refusal of the trail", eleven}, {"the C library's half to even", "rounding", even}};
}

inline List wrong_list() {
    List all = wrong_changes();
    for (const List& more : {wrong_lines(), wrong_counts(), wrong_ranges(), wrong_values(), wrong_orders(), wrong_memory(), wrong_others()})
        append(all, more);
    return all;
}

// By the lookup of each feature.
inline uint64_t by_lookups(Lending& lent) {
    Recipe recipe;
    const Lending before = lent;
    recipe.order = [before](Lines lines) {
        for (Stated& one : lines) {
            uint32_t variable = static_cast<uint32_t>(one.line.literal / 2);
            uint64_t looked_up = tariff_lookup(before.book.memory.data(), before.book.length, before.session.memory.data(), before.session.length, variable);
            uint32_t assigned = one.line.literal % 2 == 0 ? TARIFF_IS_WANTED : TARIFF_IS_BARRED, state = tariff_state(looked_up);
            one.state = state == TARIFF_IS_WANTED || state == TARIFF_IS_BARRED ? (state == assigned ? State::TRUE : State::FALSE) : State::OPEN;
        }
        return lines;
    };
    return price_by(recipe, lent);
}

inline List right_list() { return noticed_by("", {{"in its parts", by(Recipe{})}, {"by lookups", by_lookups}}); }

}  // namespace methods
