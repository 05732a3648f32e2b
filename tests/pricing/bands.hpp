// A table of age bands as a call is lent it, and what K9 says of it, by an array of all ages that is filled band by band.
#pragma once
#include <algorithm>
#include <array>
#include <cstddef>
#include <cstdint>
#include <tariff.h>
#include <vector>

#include "../support/library.hpp"

constexpr size_t BAND = 3, MAX_BANDS = 64, AGES = 121;
constexpr uint32_t MAX_AGE = 120, MAX_FACTOR = 5000;
static_assert(TARIFF_BAND_NUMBERS == BAND);

struct Band {
    uint32_t first = 0, last = 0, factor = 0;
};

using Bands = std::vector<Band>;

// The table stands between numbers that no call may write; those behind it may be bands, too.
struct LentTable {
    Numbers memory{0};
    size_t length = 0;

    // NULL for a table of length 0, as the header allows.
    const uint32_t* numbers() const { return length == 0 ? nullptr : memory.data() + 1; }

    // The whole bands that are lent.
    Bands bands() const {
        Bands list;
        list.reserve(length / BAND);
        for (size_t i = 1; i + BAND <= length + 1; i += BAND) list.push_back({memory[i], memory[i + 1], memory[i + 2]});
        return list;
    }

    // Whether the table is one of whole bands, and one more stands behind it.
    bool goes_on() const { return length % BAND == 0 && memory.size() >= length + BAND + 2; }
};

inline bool is_ascending(const Bands& bands) {
    return std::is_sorted(bands.begin(), bands.end(), [](const Band& a, const Band& b) { return a.first < b.first; });
}

// Behind the bands stand the others.
inline LentTable table_of(const Bands& bands, const Bands& behind = {}) {
    LentTable table{{0xa5a5a5a5u}, BAND * bands.size()};
    for (const Bands* part : {&bands, &behind})
        for (const Band& band : *part) table.memory.insert(table.memory.end(), {band.first, band.last, band.factor});
    table.memory.push_back(0xa5a5a5a5u);
    return table;
}

// What a checker says of a table: it is false; or an age is at fault, by 25 or 26; or it is good.
struct Checked {
    bool is_false = false;
    uint32_t number = 0, age = 0;

    bool is_good() const { return !is_false && number == 0; }
};

inline bool is_out_of_range(const Band& band) { return band.last > MAX_AGE || band.first > band.last || band.factor > MAX_FACTOR; }

inline bool is_false_table(const LentTable& table) {
    const Bands bands = table.bands();
    return table.length % BAND != 0 || bands.size() > MAX_BANDS || std::any_of(bands.begin(), bands.end(), is_out_of_range);
}

// Of each age in how many bands it lies, and the factor of one of them.
struct Cover {
    std::array<int, AGES> bands{};
    std::array<uint32_t, AGES> factors{};

    explicit Cover(const LentTable& table) {
        for (const Band& band : table.bands())
            for (size_t age = band.first; age <= band.last; age++) {
                bands[age]++;
                factors[age] = band.factor;
            }
    }
};

inline Checked checked_of(const LentTable& table) {
    if (is_false_table(table)) return {true};
    const Cover cover(table);
    for (uint32_t age = 0; age <= MAX_AGE; age++)
        if (cover.bands[age] != 1) return {false, cover.bands[age] == 0 ? 25u : 26u, age};
    return {};
}
