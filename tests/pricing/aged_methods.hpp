// Other ways to price for an age than the library's call: wrong ones, each with the name of what must notice it, and right ones.
#pragma once
#include <algorithm>
#include <cmath>
#include <cstddef>
#include <cstdint>
#include <functional>
#include <string>
#include <type_traits>
#include <vector>

#include "../support/call_then.hpp"
#include "../support/named.hpp"
#include "aged.hpp"
#include "recipe.hpp"
#include "table_methods.hpp"

namespace methods {

using AgedList = NamedList<AgedMethod>;

// What is found of a call before it is answered.
struct AgedFound {
    Found found;
    Checked checked;
    bool bad_age = false;
    Wide start = 0;

    bool out_of_range() const { return found.out_of_range() || bad_age || checked.is_false; }
};

inline uint64_t aged_19(const AgedFound& aged) { return aged.out_of_range() ? 19 : 0; }

// A call in its parts; as they stand here they are right.
struct AgedRecipe {
    Recipe lines{};
    std::function<Checked(const AgedLending&)> checked = [](const AgedLending& lent) { return check_by_ages(lent.table); };
    std::function<uint32_t(const Bands&, uint32_t age)> factor = [](const Bands& bands, uint32_t age) {
        auto held = std::find_if(bands.begin(), bands.end(), [&](const Band& band) { return band.first <= age && age <= band.last; });
        return held == bands.end() ? 0 : held->factor;
    };
    std::function<bool(uint32_t age)> age = [](uint32_t age) { return age < 121; };
    std::function<Wide(Wide base, uint32_t factor)> start = [](Wide base, uint32_t factor) { return half_away()(base * factor); };
    std::function<Wide(Wide amount, uint32_t factor)> finish = [](Wide amount, uint32_t) { return amount; };
    std::function<uint64_t(const AgedFound&)> refusal = [](const AgedFound& aged) {
        return first_of({aged.found.examination, answer_14(aged.found), aged_19(aged), aged.checked.number, answer_20(aged.found)});
    };
};

inline uint64_t price_for_age_by(const AgedRecipe& recipe, AgedLending& lent) {
    uint32_t factor = recipe.factor(lent.table.bands(), lent.age);
    AgedFound aged;
    aged.checked = recipe.checked(lent);
    aged.bad_age = !recipe.age(lent.age);
    aged.start = recipe.start(lent.base, factor);
    aged.found = find_from(aged.start, recipe.lines, lent);
    uint64_t refusal = recipe.refusal(aged);
    if (refusal != 0) return c_refusal(refusal);
    lent.amount() = static_cast<int64_t>(recipe.finish(aged.found.amount, factor));
    return recipe.lines.count(aged.found.lines);
}

inline AgedMethod by(const AgedRecipe& recipe) {
    return [recipe](AgedLending& lent) { return price_for_age_by(recipe, lent); };
}

// The recipe with one part of it another.
template <class Part>
AgedMethod aged_with(Part AgedRecipe::*part, const std::common_type_t<Part>& other) {
    AgedRecipe recipe;
    recipe.*part = other;
    return by(recipe);
}

inline AgedMethod by_table(const TableCheck& check) {
    return aged_with(&AgedRecipe::checked, [check](const AgedLending& lent) { return check(lent.table); });
}

// The fault of the customer's age, and of no other.
inline Checked check_at_age(const AgedLending& lent) {
    TableRecipe recipe;
    recipe.lowest = recipe.highest = std::min(lent.age, MAX_AGE);
    return check_by(recipe, lent.table);
}

inline Checked check_up_to_age(const AgedLending& lent) { return table_with(&TableRecipe::highest, std::min(lent.age, MAX_AGE))(lent.table); }

// Wrong in the range of the age, and in whose fault it is.
inline AgedList wrong_age_ranges() {
    auto age = [](bool (*other)(uint32_t)) { return aged_with(&AgedRecipe::age, other); };
    return named_ways<AgedMethod>("answer", {
        {"age 121 allowed", age([](uint32_t age) { return age <= 121; })},
        {"any age allowed", age([](uint32_t) { return true; })},
        {"age 120 refused", age([](uint32_t age) { return age < 120; })},
        {"age 0 refused", age([](uint32_t age) { return age > 0 && age <= 120; })},
        {"the age in 8 bits", age([](uint32_t age) { return (age & 0xff) <= 120; })},
        {"the age in 16 bits", age([](uint32_t age) { return (age & 0xffff) <= 120; })},
        {"the age with a sign", age([](uint32_t age) { return static_cast<int32_t>(age) <= 120; })},
        {"a fault judged at the customer's age alone", aged_with(&AgedRecipe::checked, check_at_age)},
        {"a fault judged up to the customer's age", aged_with(&AgedRecipe::checked, check_up_to_age)},
    });
}

inline uint64_t k1_19(const AgedFound& aged) { return answer_19(aged.found); }
inline uint64_t table_19(const AgedFound& aged) { return aged.checked.is_false ? 19 : 0; }
inline uint64_t age_19(const AgedFound& aged) { return aged.bad_age ? 19 : 0; }
inline uint64_t start_19(const AgedFound& aged) { return aged.start > MAX_BASE ? 19 : 0; }
inline uint64_t number_of(const AgedFound& aged) { return aged.checked.number; }
inline uint64_t aged_14(const AgedFound& aged) { return answer_14(aged.found); }
inline uint64_t aged_20(const AgedFound& aged) { return answer_20(aged.found); }
inline uint64_t examination(const AgedFound& aged) { return aged.found.examination; }

// The refusals in another order, or others.
inline AgedMethod in_order(const std::vector<uint64_t (*)(const AgedFound&)>& refusals) {
    return aged_with(&AgedRecipe::refusal, [refusals](const AgedFound& aged) -> uint64_t {
        for (auto refusal : refusals)
            if (refusal(aged) != 0) return refusal(aged);
        return 0;
    });
}

// The base is judged once it is scaled.
inline AgedMethod base_judged_scaled() {
    AgedRecipe recipe;
    recipe.lines.base = [](int64_t) { return true; };
    recipe.refusal = [](const AgedFound& aged) {
        uint64_t bad_start = aged.start < 0 || aged.start > MAX_BASE ? 19 : 0;
        return first_of({aged.found.examination, aged_14(aged), aged_19(aged), bad_start, aged.checked.number, aged_20(aged)});
    };
    return by(recipe);
}

inline AgedMethod as(uint64_t number, uint64_t other) {
    return call_then(for_age_by_library, [=](uint64_t answer, AgedLending&, const AgedLending&) {
        return answer == c_refusal(number) ? c_refusal(other) : answer;
    });
}

// Wrong in the order of the refusals, and in what is refused by which number.
inline AgedList wrong_aged_orders() {
    auto only = [](uint64_t number) {
        return aged_with(&AgedRecipe::checked, [=](const AgedLending& lent) {
            Checked checked = check_by_ages(lent.table);
            return checked.number == number ? checked : Checked{checked.is_false};
        });
    };
    auto start_20 = [](const AgedFound& aged) -> uint64_t { return aged.start > MAX_BASE ? 20 : 0; };
    auto false_25 = [](const AgedFound& aged) -> uint64_t { return aged.checked.is_false ? 25 : 0; };
    auto age_25 = [](const AgedFound& aged) -> uint64_t { return aged.bad_age ? 25 : 0; };
    return named_ways<AgedMethod>("answer", {
        {"a fault before 19", in_order({examination, aged_14, number_of, aged_19, aged_20})},
        {"a fault before 14", in_order({examination, number_of, aged_14, aged_19, aged_20})},
        {"a fault before 11 and 12", in_order({number_of, examination, aged_14, aged_19, aged_20})},
        {"20 before a fault", in_order({examination, aged_14, aged_19, aged_20, number_of})},
        {"20 before 19", in_order({examination, aged_14, aged_20, aged_19, number_of})},
        {"19 before 14", in_order({examination, aged_19, aged_14, number_of, aged_20})},
        {"19 before 11 and 12", in_order({aged_19, examination, aged_14, number_of, aged_20})},
        {"19 for the age before 14", in_order({examination, age_19, aged_14, aged_19, number_of, aged_20})},
        {"19 for the table before 14", in_order({examination, table_19, aged_14, aged_19, number_of, aged_20})},
        {"19 for the table before 11 and 12", in_order({table_19, examination, aged_14, aged_19, number_of, aged_20})},
        {"19 for the age behind a fault", in_order({examination, aged_14, k1_19, table_19, number_of, age_19, aged_20})},
        {"19 for the list and base behind a fault", in_order({examination, aged_14, age_19, table_19, number_of, k1_19, aged_20})},
        {"19 for the table behind 20", in_order({examination, aged_14, k1_19, age_19, number_of, aged_20, table_19})},
        {"19 for the age behind 20", in_order({examination, aged_14, k1_19, table_19, number_of, aged_20, age_19})},
        {"25 for a false table", in_order({examination, aged_14, k1_19, age_19, false_25, number_of, aged_20})},
        {"25 for an age over 120", in_order({examination, aged_14, k1_19, table_19, age_25, number_of, aged_20})},
        {"a false table priced", in_order({examination, aged_14, k1_19, age_19, number_of, aged_20})},
        {"14 never", in_order({examination, aged_19, number_of, aged_20})},
        {"20 never", in_order({examination, aged_14, aged_19, number_of})},
        {"a fault never", in_order({examination, aged_14, aged_19, aged_20})},
        {"26 never", only(25)},
        {"25 never", only(26)},
        {"the scaled base judged by 19 again", in_order({examination, aged_14, aged_19, start_19, number_of, aged_20})},
        {"the scaled base judged by 19 behind a fault", in_order({examination, aged_14, aged_19, number_of, start_19, aged_20})},
        {"the scaled base judged by 20", in_order({examination, aged_14, aged_19, number_of, start_20, aged_20})},
        {"the base judged once scaled", base_judged_scaled()},
        {"19 for 25", as(25, 19)},
        {"19 for 26", as(26, 19)},
        {"20 for 25", as(25, 20)},
        {"25 for 26", as(26, 25)},
        {"26 for 25", as(25, 26)},
        {"12 for 11", as(11, 12)},
        {"11 for 12", as(12, 11)},
    });
}

// The factor of the first band that holds the age one way or another, or 0.
inline AgedMethod factor_where(bool (*holds)(const Band& band, uint32_t age)) {
    return aged_with(&AgedRecipe::factor, [holds](const Bands& bands, uint32_t age) {
        auto held = std::find_if(bands.begin(), bands.end(), [&](const Band& band) { return holds(band, age); });
        return held == bands.end() ? 0u : held->factor;
    });
}

// A number of the band that holds the age.
inline AgedMethod number_where(uint32_t (*number)(const Band& band)) {
    return aged_with(&AgedRecipe::factor, [number](const Bands& bands, uint32_t age) {
        for (const Band& band : bands)
            if (band.first <= age && age <= band.last) return number(band);
        return 0u;
    });
}

inline uint32_t last_holding(const Bands& bands, uint32_t age) {
    auto held = std::find_if(bands.rbegin(), bands.rend(), [=](const Band& band) { return band.first <= age && age <= band.last; });
    return held == bands.rend() ? 0 : held->factor;
}

inline Wide rounded(Wide product) { return half_away()(product); }

// The base and the lines, and then the factor.
inline AgedMethod factor_last() {
    AgedRecipe recipe;
    recipe.start = [](Wide base, uint32_t) { return base; };
    recipe.finish = [](Wide amount, uint32_t factor) { return rounded(amount * factor); };
    return by(recipe);
}

inline AgedMethod rounded_by(const Rounding& rounding) {
    return aged_with(&AgedRecipe::start, [rounding](Wide base, uint32_t factor) { return rounding(base * factor); });
}

// Wrong in the factor, and in what becomes of the base.
inline AgedList wrong_factors() {
    auto start = [](Wide (*other)(Wide, uint32_t)) { return aged_with(&AgedRecipe::start, other); };
    AgedList list;
    for (const NamedRounding& wrong : wrong_roundings())
        if (wrong.name != "half upwards")
            list.push_back({"the base " + wrong.name, "amount", rounded_by(wrong.rounding)});
    append(list, named_ways<AgedMethod>("amount", {
        {"the factor after the lines", factor_last()},
        {"no factor", start([](Wide base, uint32_t) { return base; })},
        {"the factor as a change", start([](Wide base, uint32_t factor) { return base + rounded(base * factor); })},
        {"the factor in hundredths", start([](Wide base, uint32_t factor) { return rounded(base * factor * 10); })},
        {"a factor in floating point", start([](Wide base, uint32_t factor) -> Wide { return std::llround(static_cast<double>(base) * (factor / 1000.0)); })},
        {"24 bits of floating point", start([](Wide base, uint32_t factor) -> Wide { return std::llround(static_cast<float>(base) * factor / 1000.0f); })},
        {"the product in 32 bits", start([](Wide base, uint32_t factor) { return rounded(static_cast<uint32_t>(base * factor)); })},
        {"the scaled base in 32 bits", start([](Wide base, uint32_t factor) -> Wide { return static_cast<uint32_t>(rounded(base * factor)); })},
        {"the scaled base at most 10^9", start([](Wide base, uint32_t factor) { return std::min(rounded(base * factor), Wide{MAX_BASE}); })},
        {"the factor in 12 bits", start([](Wide base, uint32_t factor) { return rounded(base * (factor & 4095)); })},
        {"factors up to 1,000", start([](Wide base, uint32_t factor) { return rounded(base * std::min(factor, 1000u)); })},
        {"factor 0 as none", start([](Wide base, uint32_t factor) { return factor == 0 ? base : rounded(base * factor); })},
        {"the factor of the last age missed", factor_where([](const Band& band, uint32_t age) { return band.first <= age && age < band.last; })},
        {"the factor of the first age missed", factor_where([](const Band& band, uint32_t age) { return band.first < age && age <= band.last; })},
        {"the factor by the last age alone", factor_where([](const Band& band, uint32_t age) { return age <= band.last; })},
        {"the factor by the first age alone", factor_where([](const Band& band, uint32_t age) { return band.first <= age; })},
        {"the factor of the next age", factor_where([](const Band& band, uint32_t age) { return band.first <= age + 1 && age + 1 <= band.last; })},
        {"the factor of the age before", factor_where([](const Band& band, uint32_t age) { return band.first + 1 <= age && age <= band.last + 1; })},
        {"the factor of the first band", factor_where([](const Band&, uint32_t) { return true; })},
        {"the factor of the last band", aged_with(&AgedRecipe::factor, [](const Bands& bands, uint32_t) { return bands.empty() ? 0 : bands.back().factor; })},
        {"the first age for the factor", number_where([](const Band& band) { return band.first; })},
        {"the last age for the factor", number_where([](const Band& band) { return band.last; })},
    }));
    return list;
}

// The library's call, and the amount is written where it refuses by this number.
inline AgedMethod aged_written_where(uint64_t number) {
    auto refused = [number](uint64_t answer) { return answer == c_refusal(number); };
    return call_then_where(for_age_by_library, refused, [](AgedLending& lent, const AgedLending&) { lent.amount() ^= 1; });
}

// The library's call; then what is lent is changed, whatever was answered.
inline AgedMethod aged_left_as(void (*change)(AgedLending& lent)) {
    return call_then_where(for_age_by_library, [](uint64_t) { return true; }, [change](AgedLending& lent, const AgedLending&) { change(lent); });
}

// The table with the band behind it.
inline uint64_t price_behind(uint64_t answer, AgedLending& lent, const AgedLending& before) {
    if (!before.table.goes_on()) return answer;
    AgedLending longer = before;
    longer.table.length += BAND;
    answer = for_age_by_library(longer);
    lent.amount() = longer.amount();
    return answer;
}

// Wrong in what is written and what stays, and in what is read.
inline AgedList wrong_aged_memory() {
    AgedList list;
    for (uint64_t number : {11, 12, 14, 19, 20, 25, 26})
        list.push_back({"the amount written where refused by " + std::to_string(number), "amount", aged_written_where(number)});
    append(list, named_ways<AgedMethod>("answer", {{"one band more read", call_then(for_age_by_library, price_behind)}}));
    append(list, named_ways<AgedMethod>("number beside the amount", {
        {"the number before the amount changed", aged_left_as([](AgedLending& lent) { lent.amounts[0] ^= 1; })},
        {"the number behind it changed", aged_left_as([](AgedLending& lent) { lent.amounts[2] ^= 1; })},
    }));
    append(list, named_ways<AgedMethod>("number of the table", {
        {"a number of the table changed", aged_left_as([](AgedLending& lent) { lent.table.memory[1]++; })},
        {"the number before the table changed", aged_left_as([](AgedLending& lent) { lent.table.memory.front()++; })},
        {"the number behind the table changed", aged_left_as([](AgedLending& lent) { lent.table.memory[lent.table.length + 1]++; })},
    }));
    append(list, AgedList{
        {"a number of the book changed", "number of the book", aged_left_as([](AgedLending& lent) { lent.book.memory.back()++; })},
        {"a number of the session changed", "number of the session", aged_left_as([](AgedLending& lent) { lent.session.memory.back()++; })},
        {"a number of the list changed", "number of the list", aged_left_as([](AgedLending& lent) { lent.rates.memory.back()++; })},
    });
    return list;
}

inline AgedList wrong_aged() {
    AgedList all;
    for (const Named<TableCheck>& wrong : wrong_tables()) all.push_back({wrong.name, wrong.part, by_table(wrong.way)});
    for (const AgedList& more : {wrong_age_ranges(), wrong_aged_orders(), wrong_factors(), wrong_aged_memory()}) append(all, more);
    return all;
}

// On a good table one band holds the age, the first and the last that does; and the base is not below zero, where halves upwards go away from zero.
inline AgedList right_aged() {
    auto sorted = [](const AgedLending& lent) { return check_sorted(lent.table); };
    auto upwards = [](Wide base, uint32_t factor) { return (base * factor * 2 + 1000) / 2000; };
    return named_ways<AgedMethod>("", {
        {"in its parts", by(AgedRecipe{})},
        {"by sorting", aged_with(&AgedRecipe::checked, sorted)},
        {"the factor of the last band that holds", aged_with(&AgedRecipe::factor, last_holding)},
        {"halves upwards", aged_with(&AgedRecipe::start, upwards)},
    });
}

}  // namespace methods
