// What K9 says of several calls together: by the factor 1,000 the premium is K1's; the order of the bands and, where a table is at fault, the age are nothing.
#pragma once
#include <algorithm>
#include <cstdint>
#include <string>
#include <vector>

#include "../support/named.hpp"
#include "../support/random.hpp"
#include "aged.hpp"
#include "aged_methods.hpp"
#include "aged_worked.hpp"

// Two calls answer and write alike.
template <class Price, class Lent, class Other, class OtherLent>
void compare_alike(const Price& price, Lent lent, const Other& other, OtherLent other_lent, const std::string& name) {
    uint64_t answer = price(lent), other_answer = other(other_lent);
    compare_number(answer, other_answer, name + ": answer", lent.rates.length);
    compare_amount(lent.amount(), other_lent.amount(), name + ": amount");
}

inline void compare_neutral(AgedLending lent, uint32_t age, const AgedMethod& price) {
    lent.table = table_of({{0, MAX_AGE, 1000}});
    lent.age = age;
    compare_alike(price, lent, by_library, static_cast<const Lending&>(lent), "neutral table");
}

// With the whole bands of the table in this order.
inline void compare_order(const AgedLending& lent, const Bands& bands, const AgedMethod& price) {
    AgedLending reordered = lent;
    reordered.table = table_of(bands);
    if (lent.table.length % BAND == 0) compare_alike(price, reordered, price, lent, "another order");
}

inline void compare_age(const AgedLending& lent, uint32_t age, const AgedMethod& price) {
    AgedLending other = lent;
    other.age = age;
    const Checked checked = checked_of(lent.table);
    if (lent.age <= MAX_AGE && checked.number != 0) compare_alike(price, other, price, lent, "another age");
}

inline void compare_relations(Random& random, const AgedLending& lent, const AgedMethod& price) {
    Bands bands = lent.table.bands();
    random.shuffle(bands);
    compare_neutral(lent, static_cast<uint32_t>(random.below(121)), price);
    compare_order(lent, bands, price);
    compare_age(lent, static_cast<uint32_t>(random.below(121)), price);
}

// At all ages, and with the bands backwards.
inline void compare_all_relations(const AgedPosed& posed, const AgedMethod& price) {
    Bands bands = posed.lent.table.bands();
    std::reverse(bands.begin(), bands.end());
    for (uint32_t age = 0; age <= MAX_AGE; age++) compare_neutral(posed.lent, age, price);
    compare_order(posed.lent, bands, price);
    for (uint32_t age = 0; age <= MAX_AGE; age++) compare_age(posed.lent, age, price);
}

// K1's page with a good table, one of each fault, and a false one, at 30.
inline std::vector<AgedPosed> related_calls() {
    std::vector<AgedPosed> list;
    for (const Worked& worked : page_values()) {
        const Posed posed = pose(worked);
        for (const Bands& bands : {Bands{{0, 17, 2500}, {18, 24, 1750}, {25, 120, 1000}}, gap_at_18(), overlap_at_18(), all_ages(1, 5001)})
            list.push_back(for_age(posed, lent_table(bands, 0), 30));
    }
    return list;
}

namespace methods {

inline AgedList wrong_relations() {
    auto one_more = [](Wide base, uint32_t factor) { return half_away()(base * (factor + 1)); };
    auto first_factor = [](const Bands& bands, uint32_t) { return bands.empty() ? 0 : bands.front().factor; };
    AgedList list = named_ways<AgedMethod>("neutral table", {
        {"one thousandth more", aged_with(&AgedRecipe::start, one_more)},
        {"age 120 refused", aged_with(&AgedRecipe::age, [](uint32_t age) { return age < 120; })},
    });
    append(list, named_ways<AgedMethod>("another order", {
        {"the factor of the first band", aged_with(&AgedRecipe::factor, first_factor)},
        {"bands in the order of their ages alone", by_table(table_with(&TableRecipe::list, is_ascending))},
    }));
    append(list, named_ways<AgedMethod>("another age", {
        {"a fault at the customer's age alone", aged_with(&AgedRecipe::checked, check_at_age)},
        {"a fault up to the customer's age", aged_with(&AgedRecipe::checked, check_up_to_age)},
    }));
    return list;
}

}  // namespace methods
