// Other ways to check a table than the library's call: wrong ones, each with the name of what must notice it, and right ones.
#pragma once
#include <algorithm>
#include <cstddef>
#include <cstdint>
#include <numeric>
#include <string>
#include <utility>
#include <vector>

#include "../support/call_then.hpp"
#include "../support/named.hpp"
#include "checking.hpp"
#include "table_recipe.hpp"

namespace methods {

using CheckerList = NamedList<Checker>;
using TableList = NamedList<TableCheck>;

inline Checker checker(const TableCheck& check) {
    return [check](Checking& lent) {
        Checked checked = check(lent.table);
        if (checked.number != 0) lent.age() = checked.age;
        return answer_of(checked);
    };
}

// Wrong in the range of a band and in how many there are.
inline TableList wrong_table_ranges() {
    using Length = bool (*)(size_t numbers);
    using Ages = bool (*)(uint32_t first, uint32_t last);
    using Factor = bool (*)(uint32_t factor);
    auto length = [](Length other) { return table_with(&TableRecipe::length, other); };
    auto up_to = [](size_t bands) { return table_with(&TableRecipe::length, [=](size_t numbers) { return numbers % 3 == 0 && numbers <= 3 * bands; }); };
    auto ages = [](Ages other) { return table_with(&TableRecipe::band, [=](const Band& one) { return other(one.first, one.last) && one.factor <= 5000; }); };
    auto factor = [](Factor other) {
        return table_with(&TableRecipe::band, [=](const Band& one) { return one.first <= one.last && one.last <= 120 && other(one.factor); });
    };
    auto is_signed = [](uint32_t first, uint32_t last) {
        return static_cast<int32_t>(first) <= static_cast<int32_t>(last) && static_cast<int32_t>(last) <= 120;
    };
    return named_ways<TableCheck>("answer", {
        {"65 bands good when covering", up_to(65)},
        {"any number of bands", up_to(100000)},
        {"64 bands false", up_to(63)},
        {"the bands counted in 7 bits", length([](size_t numbers) { return numbers % 3 == 0 && numbers / 3 % 128 <= 64; })},
        {"the bands counted in 8 bits", length([](size_t numbers) { return numbers % 3 == 0 && numbers / 3 % 256 <= 64; })},
        {"a rest of one number dropped", length([](size_t numbers) { return numbers % 3 != 2 && numbers <= 192; })},
        {"a rest of two numbers dropped", length([](size_t numbers) { return numbers % 3 != 1 && numbers <= 192; })},
        {"the empty table false", length([](size_t numbers) { return numbers != 0 && numbers % 3 == 0 && numbers <= 192; })},
        {"factor 5001 allowed", factor([](uint32_t one) { return one <= 5001; })},
        {"any factor allowed", factor([](uint32_t) { return true; })},
        {"factor 5000 false", factor([](uint32_t one) { return one < 5000; })},
        {"factor 0 false", factor([](uint32_t one) { return one > 0 && one <= 5000; })},
        {"factors in 16 bits", factor([](uint32_t one) { return (one & 0xffff) <= 5000; })},
        {"factors with a sign", factor([](uint32_t one) { return static_cast<int32_t>(one) <= 5000; })},
        {"last age 121 allowed", ages([](uint32_t first, uint32_t last) { return first <= last && last <= 121; })},
        {"any last age allowed", ages([](uint32_t first, uint32_t last) { return first <= last; })},
        {"last age 120 false", ages([](uint32_t first, uint32_t last) { return first <= last && last < 120; })},
        {"a first age over its last allowed", ages([](uint32_t first, uint32_t last) { return first <= 120 && last <= 120; })},
        {"a first age one over its last allowed", ages([](uint32_t first, uint32_t last) { return first <= last + 1 && last <= 120; })},
        {"any first age allowed", ages([](uint32_t, uint32_t last) { return last <= 120; })},
        {"a band of one age false", ages([](uint32_t first, uint32_t last) { return first < last && last <= 120; })},
        {"ages with a sign", ages(is_signed)},
        {"bands in the order of their ages alone", table_with(&TableRecipe::list, is_ascending)},
    });
}

// An age of one of the two numbers before those of the other.
inline AgeFault first_by(uint32_t number, const AgeFaults& faults) {
    auto found = std::find_if(faults.begin(), faults.end(), [=](const AgeFault& fault) { return fault.number == number; });
    return found == faults.end() ? faults.front() : *found;
}

inline Bands without_last_band(Bands bands) {
    if (!bands.empty()) bands.pop_back();
    return bands;
}

inline Bands without_first_band(Bands bands) {
    if (!bands.empty()) bands.erase(bands.begin());
    return bands;
}

// In reading order, one of each pair of bands that begin alike.
inline Bands without_repeats(Bands bands) {
    for (size_t i = bands.size(); i-- > 0;)
        if (std::any_of(bands.begin(), bands.begin() + static_cast<std::ptrdiff_t>(i), [&](const Band& one) { return one.first == bands[i].first; }))
            bands.erase(bands.begin() + static_cast<std::ptrdiff_t>(i));
    return bands;
}

// Bands within their ranges that have 121 years together are read as one of all ages.
inline Bands count_years(Bands bands) {
    auto add_years = [](uint64_t sum, const Band& band) { return sum + band.last - band.first + 1; };
    bool is_false = std::any_of(bands.begin(), bands.end(), is_out_of_range);
    bool has_all = !is_false && std::accumulate(bands.begin(), bands.end(), uint64_t{0}, add_years) == AGES;
    return has_all ? Bands{{0, MAX_AGE, 0}} : bands;
}

// Wrong in which ages are at fault.
inline TableList wrong_covers() {
    auto holds = [](bool (*other)(const Band&, uint32_t)) { return table_with(&TableRecipe::holds, other); };
    auto fault = [](uint32_t (*other)(long)) { return table_with(&TableRecipe::fault, other); };
    auto named = [](AgeFault (*other)(const AgeFaults&)) { return table_with(&TableRecipe::named, other); };
    return named_ways<TableCheck>("answer", {
        {"age 120 unchecked", table_with(&TableRecipe::highest, 119)},
        {"age 0 unchecked", table_with(&TableRecipe::lowest, 1)},
        {"age 121 checked", table_with(&TableRecipe::highest, 121)},
        {"the last age excluded", holds([](const Band& band, uint32_t age) { return band.first <= age && age < band.last; })},
        {"the first age excluded", holds([](const Band& band, uint32_t age) { return band.first < age && age <= band.last; })},
        {"the last age excluded but for 120", holds([](const Band& band, uint32_t age) { return band.first <= age && (age < band.last || age == 120); })},
        {"25 and 26 exchanged", fault([](long bands) { return bands == 0 ? 26u : bands == 1 ? 0u : 25u; })},
        {"25 for several", fault([](long bands) { return bands == 1 ? 0u : 25u; })},
        {"26 for none", fault([](long bands) { return bands == 1 ? 0u : 26u; })},
        {"two bands pass", fault([](long bands) { return bands == 0 ? 25u : bands < 3 ? 0u : 26u; })},
        {"three bands pass", fault([](long bands) { return bands == 0 ? 25u : bands == 2 ? 26u : 0u; })},
        {"an odd number of bands passes", fault([](long bands) { return bands == 0 ? 25u : bands % 2 == 0 ? 26u : 0u; })},
        {"no band passes", fault([](long bands) { return bands < 2 ? 0u : 26u; })},
        {"several bands pass", fault([](long bands) { return bands == 0 ? 25u : 0u; })},
        {"the number of the highest age", named([](const AgeFaults& faults) { return faults.back(); })},
        {"gaps before overlaps", named([](const AgeFaults& faults) { return first_by(25, faults); })},
        {"overlaps before gaps", named([](const AgeFaults& faults) { return first_by(26, faults); })},
        {"false after a fault", table_with(&TableRecipe::false_first, false)},
        {"the empty table good", table_with(&TableRecipe::read, [](Bands bands) { return bands.empty() ? Bands{{0, 120, 0}} : bands; })},
        {"the last band unread", table_with(&TableRecipe::read, without_last_band)},
        {"the first band unread", table_with(&TableRecipe::read, without_first_band)},
        {"bands that begin alike read once", table_with(&TableRecipe::read, without_repeats)},
        {"years counted", table_with(&TableRecipe::read, count_years)},
    });
}

// Wrong for a checker and for pricing.
inline TableList wrong_tables() {
    TableList all = wrong_table_ranges();
    append(all, wrong_covers());
    return all;
}

inline Checker answer_as(uint64_t answer, uint64_t other) {
    return call_then(check_by_library, [=](uint64_t answered, Checking&, const Checking&) { return answered == answer ? other : answered; });
}

// The library's call; where the answer is such, what it left is changed, by what was lent before.
inline Checker left_where(bool (*condition)(uint64_t answer), void (*change)(Checking& lent, const Checking& before)) {
    return call_then_where(check_by_library, condition, change);
}

inline AgeFault later(const AgeFaults& faults) { return {faults.front().number, faults.front().age + 1}; }
inline AgeFault earlier(const AgeFaults& faults) { return {faults.front().number, faults.front().age - 1}; }
inline AgeFault last_alike(const AgeFaults& faults) {
    auto found = std::find_if(faults.rbegin(), faults.rend(), [&](const AgeFault& fault) { return fault.number == faults.front().number; });
    return {found->number, found->age};
}

// The table with the band behind it.
inline uint64_t check_behind(uint64_t answer, Checking& lent, const Checking& before) {
    if (!before.table.goes_on()) return answer;
    Checking longer = before;
    longer.table.length += BAND;
    answer = check_by_library(longer);
    lent.age() = longer.age();
    return answer;
}

// Wrong in the age that is named, in what is answered, written and read.
inline CheckerList wrong_ages() {
    auto is_fault = [](uint64_t answer) { return tariff_kind(answer) == TARIFF_REFUSED; };
    auto age_answered = [](uint64_t answer, Checking& lent, const Checking&) { return tariff_kind(answer) == TARIFF_REFUSED ? c_refusal(lent.age()) : answer; };
    auto is_false = [](uint64_t answer) { return answer == FALSE_TABLE; };
    auto is_good = [](uint64_t answer) { return answer == 0; };
    auto any = [](uint64_t) { return true; };
    auto write = [](Checking& lent, const Checking&) { lent.age() ^= 1; };
    auto write_none = [](Checking& lent, const Checking& before) { lent.age() = before.age(); };
    auto named = [](AgeFault (*other)(const AgeFaults&)) { return checker(table_with(&TableRecipe::named, other)); };
    CheckerList list = named_ways<Checker>("age", {
        {"the highest age named", named(last_alike)},
        {"the age behind it named", named(later)},
        {"the age before it named", named(earlier)},
        {"the age written where the table is false", left_where(is_false, write)},
        {"the age written where it is good", left_where(is_good, write)},
        {"age 0 written where it is good", left_where(is_good, [](Checking& lent, const Checking&) { lent.age() = 0; })},
        {"no age written", left_where(is_fault, write_none)},
        {"the age added to what was there", left_where(is_fault, [](Checking& lent, const Checking& before) { lent.age() ^= before.age(); })},
        {"the age written in 8 bits", left_where(is_fault, [](Checking& lent, const Checking& before) { lent.age() |= before.age() & ~255u; })},
    });
    append(list, named_ways<Checker>("answer", {
        {"19 for false", answer_as(FALSE_TABLE, c_refusal(19))},
        {"25 for false", answer_as(FALSE_TABLE, c_refusal(25))},
        {"false accepted", answer_as(FALSE_TABLE, 0)},
        {"a number with false", answer_as(FALSE_TABLE, FALSE_TABLE + 1)},
        {"25 accepted", answer_as(c_refusal(25), 25)},
        {"true for good", answer_as(0, 1)},
        {"the age answered", call_then(check_by_library, age_answered)},
        {"one band more read", call_then(check_by_library, check_behind)},
    }));
    append(list, named_ways<Checker>("number beside the age", {
        {"64 bits written", left_where(is_fault, [](Checking& lent, const Checking&) { lent.ages[2] = 0; })},
        {"the number before the age changed", left_where(any, [](Checking& lent, const Checking&) { lent.ages[0] ^= 1; })},
    }));
    append(list, named_ways<Checker>("number of the table", {
        {"a number of the table changed", left_where(any, [](Checking& lent, const Checking&) { lent.table.memory[1]++; })},
        {"the number before the table changed", left_where(any, [](Checking& lent, const Checking&) { lent.table.memory.front()++; })},
        {"the number behind it changed", left_where(any, [](Checking& lent, const Checking&) { lent.table.memory[lent.table.length + 1]++; })},
    }));
    return list;
}

inline CheckerList wrong_checkers() {
    CheckerList all;
    for (const Named<TableCheck>& wrong : wrong_tables()) all.push_back({wrong.name, wrong.part, checker(wrong.way)});
    append(all, wrong_ages());
    return all;
}

inline CheckerList right_checkers() { return named_ways<Checker>("", {{"age by age", checker(check_by_ages)}, {"by sorting", checker(check_sorted)}}); }

}  // namespace methods
