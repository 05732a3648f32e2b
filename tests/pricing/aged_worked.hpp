// Tables, and calls that price for an age, whose answers were worked out by hand: the values of K9's page, both sides of each limit, and the order of refusals.
#pragma once
#include <algorithm>
#include <array>
#include <cstddef>
#include <cstdint>
#include <initializer_list>
#include <limits>
#include <string>
#include <utility>
#include <vector>

#include "aged.hpp"
#include "checking.hpp"
#include "worked.hpp"

struct WorkedTable {
    std::string name;
    Bands bands;
    Checked checked;
    size_t unlent = 0;  // so many numbers of the last band
};

using WorkedTables = std::vector<WorkedTable>;

inline Bands joined(std::initializer_list<Bands> parts) {
    Bands all;
    for (const Bands& part : parts) all.insert(all.end(), part.begin(), part.end());
    return all;
}

// So many bands of one age each, from 0 on, and one of all others.
inline Bands single_ages(uint32_t count) {
    Bands bands;
    for (uint32_t age = 0; age < count; age++) bands.push_back({age, age, age});
    if (count <= MAX_AGE) bands.push_back({count, MAX_AGE, 1000});
    return bands;
}

inline Bands all_ages(size_t times, uint32_t factor = 1000) { return Bands(times, {0, MAX_AGE, factor}); }

// The table of K9's page, and the same with a gap at 18, and with an overlap there.
inline Bands four_bands() { return {{65, 120, 1325}, {25, 64, 1000}, {0, 17, 2500}, {18, 24, 1750}}; }
inline Bands gap_at_18() { return {{65, 120, 1325}, {25, 64, 1000}, {0, 17, 2500}, {19, 24, 1750}}; }
inline Bands overlap_at_18() { return {{65, 120, 1325}, {25, 64, 1000}, {0, 18, 2500}, {18, 24, 1750}}; }

inline Checked is_false() { return {true}; }
inline Checked in_none(uint32_t age) { return {false, 25, age}; }
inline Checked in_several(uint32_t age) { return {false, 26, age}; }

// The tables of K9's page.
inline WorkedTables page_tables() {
    return {
        {"four bands", four_bands(), {}},
        {"a gap at 18", gap_at_18(), in_none(18)},
        {"an overlap at 18", overlap_at_18(), in_several(18)},
        {"no band", {}, in_none(0)},
        {"from 1 on", {{1, 120, 1000}}, in_none(0)},
        {"up to 119", {{0, 119, 1000}}, in_none(120)},
        {"all ages twice", all_ages(2), in_several(0)},
        {"all ages 64 times", all_ages(64), in_several(0)},
        {"all ages 65 times", all_ages(65), is_false()},
        {"up to 121", {{0, 121, 1000}}, is_false()},
        {"from 5 to 4", {{5, 4, 1000}}, is_false()},
        {"factor 5001", {{0, 120, 5001}}, is_false()},
        {"a factor and a gap", {{1, 120, 1000}, {0, 0, 5001}}, is_false()},
        {"two numbers", {{0, 120, 1000}}, is_false(), 1},
        {"63 single ages", single_ages(63), {}},
        {"64 single ages", single_ages(64), is_false()},
        {"an overlap before a gap", {{0, 10, 1}, {10, 20, 1}, {22, 120, 1}}, in_several(10)},
        {"a gap before an overlap", {{0, 9, 1}, {11, 20, 1}, {20, 120, 1}}, in_none(10)},
    };
}

// Each age in one band, in none, and in several.
inline WorkedTables cover_tables() {
    return {
        {"one band", all_ages(1), {}},
        {"factor 0", all_ages(1, 0), {}},
        {"factor 5000", all_ages(1, 5000), {}},
        {"age 0 alone", {{0, 0, 1}, {1, 120, 2}}, {}},
        {"age 120 alone", {{120, 120, 1}, {0, 119, 2}}, {}},
        {"a gap at 60", {{0, 59, 1}, {61, 120, 1}}, in_none(60)},
        {"age 60 twice", {{0, 60, 1}, {60, 120, 1}}, in_several(60)},
        {"age 60 twice, 120 left out", {{0, 60, 1}, {60, 119, 1}}, in_several(60)},
        {"age 119 twice", {{0, 119, 1}, {119, 120, 1}}, in_several(119)},
        {"age 120 twice", {{0, 120, 1}, {120, 120, 1}}, in_several(120)},
        {"age 0 twice", {{0, 0, 1}, {0, 120, 1}}, in_several(0)},
        {"a band in another", {{0, 120, 1}, {50, 60, 1}}, in_several(50)},
        {"a band in three others", {{50, 60, 1}, {0, 120, 1}, {40, 70, 1}, {30, 80, 1}}, in_several(30)},
        {"age 40 three times", {{0, 40, 1}, {40, 40, 1}, {40, 120, 1}}, in_several(40)},
        {"age 7 twice, age 100 left out", {{0, 7, 1}, {7, 99, 1}, {101, 120, 1}}, in_several(7)},
        {"age 7 left out, age 100 twice", {{0, 6, 1}, {8, 100, 1}, {100, 120, 1}}, in_none(7)},
        {"two gaps", {{1, 59, 1}, {61, 120, 1}}, in_none(0)},
        {"two overlaps", {{0, 20, 1}, {20, 90, 1}, {90, 120, 1}}, in_several(20)},
        {"age 3 alone left out", {{4, 120, 1}, {0, 2, 1}}, in_none(3)},
        {"age 5 alone", {{5, 5, 1000}}, in_none(0)},
        {"62 single ages", single_ages(62), {}},
        {"single ages, and age 0 again", joined({single_ages(62), {{0, 0, 0}}}), in_several(0)},
    };
}

// Outside the ranges, with and without an age at fault.
inline WorkedTables false_tables() {
    const uint32_t most = 0xffffffffu, half = 0x80000000u;
    WorkedTables list;
    for (const Band& band : std::initializer_list<Band>{{121, 121, 0}, {120, 121, 0}, {60, 59, 0}, {120, 0, 0}, {121, 120, 0}, {0, most, 0}, {most, most, 0},
                                                        {half, half, 0}, {most, 0, 0}, {half + 5, half + 9, 0}, {256, 300, 0}, {65536, 65540, 0},
                                                        {0, 120, 5001}, {0, 120, half}, {0, 120, most}, {0, 120, 65536}, {256, 256 + 5, 1000}}) {
        std::string name = std::to_string(band.first) + " to " + std::to_string(band.last) + " by " + std::to_string(band.factor);
        list.push_back({name + " alone", {band}, is_false()});
        list.push_back({name + " behind all ages", {{0, 120, 1}, band}, is_false()});
        list.push_back({name + " before a gap", {band, {1, 120, 1}}, is_false()});
    }
    for (uint32_t factor : {5002u, 65536u + 1000u, half, half + 1000u, most})
        list.push_back({"factor " + std::to_string(factor), all_ages(1, factor), is_false()});
    for (uint32_t count : {65, 100, 121}) list.push_back({std::to_string(count) + " single ages", single_ages(count), is_false()});
    for (size_t count : {64, 128, 192, 256, 65536}) list.push_back({"so many bands more", joined({four_bands(), all_ages(count)}), is_false()});
    for (size_t unlent : {1, 2})
        for (const Bands& bands : {four_bands(), joined({four_bands(), {{0, 120, 0}}}), gap_at_18(), single_ages(63), all_ages(1)})
            list.push_back({"a part of a band", bands, is_false(), unlent});
    return list;
}

// The page's bands in every order, and where each is left out.
inline WorkedTables ordered_tables() {
    WorkedTables list;
    const Bands page = four_bands();
    std::array<size_t, 4> order{0, 1, 2, 3};
    do {
        Bands bands;
        for (size_t i : order) bands.push_back(page[i]);
        list.push_back({"in some order", bands, {}});
        const Band first = bands.front();
        bands.erase(bands.begin());
        list.push_back({"one left out", bands, in_none(first.first)});
    } while (std::next_permutation(order.begin(), order.end()));
    return list;
}

// Every age in so many bands, but for the numbers of the page.
inline WorkedTables repeated_tables() {
    WorkedTables list;
    for (size_t times = 3; times < MAX_BANDS; times++) list.push_back({"all ages " + std::to_string(times) + " times", all_ages(times), in_several(0)});
    return list;
}

inline WorkedTables worked_tables() {
    WorkedTables all = page_tables();
    for (const WorkedTables& more : {cover_tables(), repeated_tables(), false_tables(), ordered_tables()}) all.insert(all.end(), more.begin(), more.end());
    return all;
}

inline std::string name_of(const WorkedTable& worked) { return worked.name; }

// What is lent for it; a band of all ages stands behind the table.
inline LentTable lent_table(const Bands& bands, size_t unlent) {
    LentTable table = table_of(bands, all_ages(1, 777));
    table.length -= unlent;
    return table;
}

inline Checking pose_table(const WorkedTable& worked) { return {lent_table(worked.bands, worked.unlent), {0xa5a5a5a5u, 0x12345678u, 0xa5a5a5a5u}}; }

// The worked value is due, and what the call answers and writes.
inline Checked compare_table(const WorkedTable& worked, const Checker& check) {
    Checked due = compare_check(pose_table(worked), check);
    compare_number(answer_of(due), answer_of(worked.checked), "worked answer with bands", worked.bands.size());
    if (due.number != 0) compare_number(due.age, worked.checked.age, "worked age with bands", worked.bands.size());
    return due;
}

// A call for an age.
struct AgedWorked {
    Worked worked;
    Bands bands;
    uint32_t age;
    size_t unlent = 0;
};

using AgedWorklist = std::vector<AgedWorked>;

inline Worked without_lines(const std::string& name, int64_t base, uint64_t answer, int64_t amount = 0) { return {name, positive(), base, {}, answer, amount}; }

// The values of K9's page.
inline AgedWorklist page_ages() {
    const Rates seven = times(7, parts(1, 1000)), eight = times(8, parts(1, 1000)), twenty = times(20, parts(1, 1000));
    AgedWorklist list;
    for (auto [age, amount] : {std::pair{0, 30863}, {17, 30863}, {18, 21604}, {24, 21604}, {25, 12345}, {64, 12345}, {65, 16357}, {120, 16357}})
        list.push_back({without_lines("12,345 at " + std::to_string(age), 12345, 0, amount), four_bands(), static_cast<uint32_t>(age)});
    const AgedWorklist more{
        {without_lines("12,345 at 121", 12345, c_refusal(19)), four_bands(), 121},
        {without_lines("1 x 500", 1, 0, 1), all_ages(1, 500), 30},
        {without_lines("1 x 499", 1, 0, 0), all_ages(1, 499), 30},
        {without_lines("3 x 1500", 3, 0, 5), all_ages(1, 1500), 30},
        {without_lines("10^9 x 5000", 1000000000, 0, 5000000000), all_ages(1, 5000), 30},
        {{"10^9 x 5000, seven times doubled", positive(), 1000000000, seven, 0, 640000000000}, all_ages(1, 5000), 30},
        {{"10^9 x 5000, eight times doubled", positive(), 1000000000, eight, c_refusal(20)}, all_ages(1, 5000), 30},
        {without_lines("base -1 with a gap", -1, c_refusal(19)), gap_at_18(), 30},
        {{"a gap with twenty doublings", positive(), 1000000000, twenty, c_refusal(25)}, gap_at_18(), 30},
    };
    list.insert(list.end(), more.begin(), more.end());
    return list;
}

// Base, factor and what comes of them.
inline AgedWorklist scaled_bases() {
    struct Scaled {
        int64_t base;
        uint32_t factor;
        int64_t amount;
    };
    AgedWorklist list;
    for (const Scaled& one : std::initializer_list<Scaled>{
             {0, 0, 0}, {0, 5000, 0}, {1, 0, 0}, {1, 1, 0}, {1, 501, 1}, {1, 999, 1}, {1, 1000, 1}, {1, 1001, 1}, {1, 1499, 1}, {1, 1500, 2}, {1, 2500, 3},
             {1, 3500, 4}, {1, 4500, 5}, {1, 5000, 5}, {2, 250, 1}, {2, 249, 0}, {2, 4999, 10}, {3, 500, 2}, {5, 100, 1}, {5, 300, 2}, {5, 500, 3},
             {7, 4500, 32}, {499, 1, 0}, {500, 1, 1}, {501, 1, 1}, {500, 3, 2}, {1499, 1, 1}, {1500, 1, 2}, {2500, 1, 3}, {999, 999, 998}, {12345, 1, 12},
             {12345, 100, 1235}, {12345, 300, 3704}, {12345, 2500, 30863}, {25, 580, 15}, {45, 700, 32}, {35, 1100, 39}, {5, 2300, 12}, {15, 4100, 62},
             {999999999, 5000, 4999999995}, {999999999, 1, 1000000}, {999999999, 4999, 4998999995}, {1000000000, 0, 0}, {1000000000, 1, 1000000},
             {1000000000, 1001, 1001000000}, {1000000000, 4295, 4295000000}, {858993459, 5000, 4294967295}, {858993460, 5000, 4294967300},
             {429497, 1000, 429497}, {4294968, 1000, 4294968}, {16777217, 1000, 16777217}, {1, 4096, 4}, {1000, 4097, 4097}})
        list.push_back({without_lines(std::to_string(one.base) + " x " + std::to_string(one.factor), one.base, 0, one.amount), all_ages(1, one.factor), 77});
    return list;
}

// Bases and ages on both sides of their limits, whatever the factor.
inline AgedWorklist range_ages() {
    AgedWorklist list;
    for (uint32_t factor : {0u, 1u, 500u, 1000u, 5000u}) {
        for (int64_t base : {int64_t{-1}, int64_t{1000000001}, int64_t{2000000000}, std::numeric_limits<int64_t>::min(), std::numeric_limits<int64_t>::max()})
            list.push_back({without_lines("base " + std::to_string(base), base, c_refusal(19)), all_ages(1, factor), 20});
        for (uint32_t age : {0u, 1u, 119u, 120u}) list.push_back({without_lines("age " + std::to_string(age), 2000, 0, 2 * factor), all_ages(1, factor), age});
        for (uint32_t age : {121u, 122u, 127u, 128u, 255u, 256u, 300u, 65536u, 0x80000000u, 0x80000014u, 0xffffffffu, 0xffffff80u})
            list.push_back({without_lines("age " + std::to_string(age), 2000, c_refusal(19)), all_ages(1, factor), age});
    }
    return list;
}

// Every table but the longest at 121, and those that are not good at 30 too, on a base of 2,000 that no line changes.
inline AgedWorklist aged_tables() {
    AgedWorklist list;
    for (const WorkedTable& worked : worked_tables()) {
        if (worked.bands.size() > 1000) continue;
        uint64_t number = worked.checked.is_false ? 19 : worked.checked.number;
        if (number != 0) list.push_back({without_lines(worked.name, 2000, c_refusal(number)), worked.bands, 30, worked.unlent});
        list.push_back({without_lines(worked.name, 2000, c_refusal(19)), worked.bands, 121, worked.unlent});
    }
    return list;
}

// The bands of good tables at their ends, and some at each of their ages.
inline AgedWorklist banded_ages() {
    AgedWorklist list;
    Bands backwards = single_ages(63);
    std::reverse(backwards.begin(), backwards.end());
    for (const Bands& bands : {four_bands(), backwards, Bands{{0, 0, 1}, {1, 120, 2}}, Bands{{120, 120, 1}, {0, 119, 2}}})
        for (const Band& band : bands)
            for (uint32_t age : {band.first, band.last}) list.push_back({without_lines("an end of a band", 2000, 0, 2 * int64_t{band.factor}), bands, age});
    Bands highest{{0, 57, 0}};
    for (uint32_t age = 58; age <= MAX_AGE; age++) highest.push_back({age, age, age});
    for (const Bands& bands : {highest, Bands{{0, 60, 3}, {61, 120, 4}}, Bands{{61, 120, 4}, {0, 60, 3}}})
        for (const Band& band : bands)
            for (uint32_t age = band.first; age <= band.last; age++)
                list.push_back({without_lines("an age of a band", 2000, 0, 2 * int64_t{band.factor}), bands, age});
    return list;
}

// The refusals beside each other, and the factor before the lines.
inline AgedWorklist aged_orders() {
    const Rates up = times(10, parts(1, 1000)), over = joined({up, cents(1, 1)}), bad = cents(1, 10000001);
    const Bands gap = gap_at_18(), overlap = overlap_at_18(), outside = all_ages(1, 5001), five = all_ages(1, 5000);
    const int64_t base = 976562500, fifth = 195312500, eighth = 781250000;
    const Situation conflict = conflicting();
    return {
        {{"14 with a gap", conflict, 0, {}, c_refusal(14)}, gap, 30},
        {{"14 with a false table", conflict, 0, {}, c_refusal(14)}, outside, 30},
        {{"14 with age 121", conflict, 0, {}, c_refusal(14)}, five, 121},
        {{"14 with all at fault", conflict, -1, bad, c_refusal(14)}, outside, 121},
        {{"14 with a good table", conflict, 0, {}, c_refusal(14)}, five, 30},
        {{"14 before 20", conflict, base, times(11, parts(-1, 1000)), c_refusal(14)}, five, 30},
        {{"19 by a line, a gap", positive(), 0, bad, c_refusal(19)}, gap, 30},
        {{"19 by a line, an overlap", positive(), 0, bad, c_refusal(19)}, overlap, 18},
        {{"19 by a false line, a gap", positive(), 0, cents(-1, 10000001), c_refusal(19)}, gap, 30},
        {{"19 by the list, a gap", positive(), 0, times(201, cents(1, 0)), c_refusal(19)}, gap, 30},
        {{"19 by a part of a line, a gap", positive(), 0, {2}, c_refusal(19)}, gap, 18},
        {{"19 by the age, a gap", positive(), 0, {}, c_refusal(19)}, gap, 121},
        {{"19 by the age, an overlap", positive(), 0, {}, c_refusal(19)}, overlap, 121},
        {{"19 by the base, a gap", positive(), 1000000001, {}, c_refusal(19)}, gap, 18},
        {{"19 by the base, an overlap", positive(), -1, {}, c_refusal(19)}, overlap, 18},
        {{"19 by the table, then 20", positive(), base, over, c_refusal(19)}, outside, 30},
        {{"19 by the age, then 20", positive(), base, over, c_refusal(19)}, all_ages(1), 121},
        {{"19 by the last line, then 20", positive(), base, joined({over, bad}), c_refusal(19)}, all_ages(1), 30},
        {{"19 by a table with a gap, then 20", positive(), base, over, c_refusal(19)}, {{1, 120, 5001}}, 30},
        {{"25 before 20", positive(), base, over, c_refusal(25)}, gap, 30},
        {{"25 before 20 at its age", positive(), base, over, c_refusal(25)}, gap, 18},
        {{"26 before 20", positive(), base, over, c_refusal(26)}, overlap, 30},
        {{"25 with open lines", negative(), 5, cents(2, 1), c_refusal(25)}, gap, 30},
        {{"20 by the lines", positive(), base, over, c_refusal(20)}, all_ages(1), 30},
        {{"the limit by the factor", positive(), fifth, up, 0, 1000000000000}, five, 30},
        {{"one over it by the factor", positive(), fifth, over, c_refusal(20)}, five, 30},
        {{"the limit in eight steps", positive(), eighth, times(8, parts(1, 1000)), 0, 1000000000000}, five, 30},
        {{"a cent more in eight steps", positive(), eighth + 1, times(8, parts(1, 1000)), c_refusal(20)}, five, 30},
        {{"a base that comes to nothing", positive(), base, over, 0, 1}, all_ages(1, 0), 30},
        {{"an amount behind the factor", positive(), 1000, cents(1, 1000), 0, 3500}, all_ages(1, 2500), 30},
        {{"a change behind the factor", positive(), 3, parts(1, 500), 0, 8}, all_ages(1, 1500), 30},
        {{"a scaled base that is over 10^9, and a line", positive(), 1000000000, cents(1, -10000000), 0, 4990000000}, five, 30},
        {{"open lines", negative(), 10, joined({cents(2, 9), cents(-2, 9), cents(1, 9), cents(-1, 9)}), 2, 24}, all_ages(1, 1500), 30},
        {{"the listing at 30", {listing(), {-1, -3}}, 12345, joined({cents(2, 2500), parts(-1, -75)}), 0, 13732}, four_bands(), 30},
        {{"the listing at 70", {listing(), {-1, -3}}, 12345, joined({cents(2, 2500), parts(-1, -75)}), 0, 17443}, four_bands(), 70},
        {{"the listing at 17", {listing(), {-1, -3}}, 12345, joined({cents(2, 2500), parts(-1, -75)}), 0, 30861}, four_bands(), 17},
    };
}

inline AgedWorklist worked_ages() {
    AgedWorklist all = page_ages();
    for (const AgedWorklist& more : {scaled_bases(), range_ages(), aged_tables(), banded_ages(), aged_orders()})
        all.insert(all.end(), more.begin(), more.end());
    return all;
}

// What is lent for a worked call.
struct AgedPosed {
    Worked worked;
    AgedLending lent;
    uint64_t refusal = 0;  // the number by which the examination refuses; 0 where it does not
};

inline std::string name_of(const AgedPosed& posed) { return posed.worked.name; }

inline AgedPosed for_age(const Posed& posed, const LentTable& table, uint32_t age) { return {posed.worked, {posed.lent, table, age}, posed.refusal}; }

inline std::vector<AgedPosed> posed_ages() {
    std::vector<AgedPosed> list;
    for (const AgedWorked& aged : worked_ages()) list.push_back(for_age(pose(aged.worked), lent_table(aged.bands, aged.unlent), aged.age));
    for (const Situation& situation : {positive(), conflicting()})
        for (const Bands& bands : {four_bands(), gap_at_18(), overlap_at_18(), all_ages(1, 5001)})
            for (uint32_t age : {30u, 121u})
                for (auto [book, cut] : {std::pair<size_t, size_t>{0, 1}, {3, 0}, {3, 1}})
                    list.push_back(for_age(pose_damaged({"at fault", situation, 5, cents(1, 1), 0}, book, cut), lent_table(bands, 0), age));
    return list;
}

// The worked value is due, and what the call answers and writes.
inline Due compare_worked(const AgedPosed& posed, const AgedMethod& price) {
    Due due = compare_for_age(posed.lent, posed.refusal, price);
    compare_number(due.answer, posed.worked.answer, "worked answer with table numbers", posed.lent.table.length);
    if (!due.refused()) compare_amount(due.amount, posed.worked.amount, "worked amount");
    return due;
}

// By the library: 1,000 cents come to as many cents as the factor has thousandths, for every factor.
inline void check_factors(const AgedMethod& price) {
    AgedPosed posed = for_age(pose(without_lines("every factor", 1000, 0)), {}, 30);
    for (uint32_t factor = 0; factor <= MAX_FACTOR; factor++) {
        posed.lent.table = table_of(all_ages(1, factor));
        posed.worked.amount = factor;
        compare_worked(posed, price);
    }
}
