// A second way to check a table, in parts that can be exchanged for others: for each age the bands are gone through.
#pragma once
#include <algorithm>
#include <cstddef>
#include <cstdint>
#include <functional>
#include <type_traits>
#include <vector>

#include "bands.hpp"

namespace methods {

// An age at fault, by 25 or 26.
struct AgeFault {
    uint32_t number, age;
};

using AgeFaults = std::vector<AgeFault>;

// As the parts stand here they are right.
struct TableRecipe {
    std::function<bool(size_t numbers)> length = [](size_t numbers) { return numbers % 3 == 0 && numbers < 195; };
    std::function<bool(const Band&)> band = [](const Band& band) { return band.factor < 5001 && band.last < 121 && band.first < band.last + 1; };
    std::function<bool(const Bands&)> list = [](const Bands&) { return true; };
    std::function<Bands(Bands)> read = [](Bands bands) { return bands; };
    std::function<bool(const Band&, uint32_t age)> holds = [](const Band& band, uint32_t age) { return age >= band.first && age <= band.last; };
    std::function<uint32_t(long bands)> fault = [](long bands) { return bands == 0 ? 25u : bands == 1 ? 0u : 26u; };
    uint32_t lowest = 0, highest = 120;  // of the ages that are looked at
    std::function<AgeFault(const AgeFaults&)> named = [](const AgeFaults& faults) { return faults.front(); };
    bool false_first = true;
};

inline AgeFaults faults_of(const TableRecipe& recipe, const Bands& bands) {
    AgeFaults faults;
    for (uint32_t age = recipe.lowest; age <= recipe.highest; age++) {
        uint32_t number = recipe.fault(std::count_if(bands.begin(), bands.end(), [&](const Band& band) { return recipe.holds(band, age); }));
        if (number != 0) faults.push_back({number, age});
    }
    return faults;
}

inline Checked check_by(const TableRecipe& recipe, const LentTable& table) {
    const Bands bands = recipe.read(table.bands());
    bool is_false = !recipe.length(table.length) || !recipe.list(bands) || !std::all_of(bands.begin(), bands.end(), recipe.band);
    if (is_false && recipe.false_first) return {true};
    const AgeFaults faults = faults_of(recipe, bands);
    if (faults.empty()) return {is_false};
    const AgeFault fault = recipe.named(faults);
    return {false, fault.number, fault.age};
}

inline Checked check_by_ages(const LentTable& table) { return check_by(TableRecipe{}, table); }

// A way to check a table.
using TableCheck = std::function<Checked(const LentTable&)>;

// The recipe with one part of it another.
template <class Part>
TableCheck table_with(Part TableRecipe::*part, const std::common_type_t<Part>& other) {
    TableRecipe recipe;
    recipe.*part = other;
    return [recipe](const LentTable& table) { return check_by(recipe, table); };
}

// By the bands in the order of their first ages: each must begin behind the one before it.
inline Checked check_sorted(const LentTable& table) {
    Bands bands = table.bands();
    if (table.length % 3 != 0 || bands.size() >= 65) return {true};
    for (const Band& band : bands)
        if (band.first > band.last || band.last >= 121 || band.factor >= 5001) return {true};
    std::sort(bands.begin(), bands.end(), [](const Band& a, const Band& b) { return a.first < b.first; });
    uint32_t next = 0;  // all ages below lie in one band
    for (size_t i = 0; i < bands.size(); i++) {
        if (bands[i].first > next) return {false, 25, next};
        if (i + 1 < bands.size() && bands[i + 1].first <= bands[i].last) return {false, 26, bands[i + 1].first};
        next = bands[i].last + 1;
    }
    return next <= 120 ? Checked{false, 25, next} : Checked{};
}

}  // namespace methods
