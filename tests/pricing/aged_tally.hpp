// How many tables, and calls that price for an age, of each kind were compared; each kind has to be met often enough.
#pragma once
#include <algorithm>
#include <array>
#include <cstddef>
#include <cstdint>
#include <functional>
#include <iostream>
#include <string>
#include <vector>

#include "../support/kinds.hpp"
#include "aged.hpp"
#include "checking.hpp"

class TableTally {
public:
    void add(const Checking& lent, const Checked& due) {
        tables++;
        kinds.count(lent.table, due);
    }

    void print() const {
        std::cout << "pricing: " << tables << " tables compared, ";
        kinds.print(ENOUGH);
        std::cout << "\n";
    }

private:
    static constexpr long ENOUGH = 10;

    using Kind = ::Kind<LentTable, Checked>;
    using T = const LentTable&;
    using C = const Checked&;

    static Kind is_good(const std::string& name, bool (*condition)(const Bands& bands)) {
        return {name, [condition](T table, C due) { return due.is_good() && condition(table.bands()); }};
    }

    // At fault by this number, with some of these ages and the bands that they lie in.
    static Kind is_fault(const std::string& name, uint32_t number, bool (*condition)(uint32_t age, const std::array<int, AGES>& cover)) {
        return {name, [=](T table, C due) { return due.number == number && condition(due.age, Cover(table).bands); }};
    }

    // False by this one cause: a part of a band, too many, or a band.
    static Kind is_false(const std::string& name, bool (*condition)(const LentTable& table, const Band& band)) {
        return {name, [condition](T table, C due) {
            const Bands bands = table.bands();
            auto out = std::find_if(bands.begin(), bands.end(), is_out_of_range);
            size_t causes = size_t{table.length % BAND != 0} + size_t{bands.size() > MAX_BANDS} +
                            static_cast<size_t>(std::count_if(bands.begin(), bands.end(), is_out_of_range));
            return due.is_false && causes == 1 && condition(table, out == bands.end() ? Band{} : *out);
        }};
    }

    // Whether the ages behind this one hold another such fault.
    static bool follows(const std::array<int, AGES>& cover, uint32_t age, bool several) {
        return std::any_of(cover.begin() + age + 1, cover.end(), [=](int bands) { return several ? bands > 1 : bands == 0; });
    }

    static std::vector<Kind> all_kinds() {
        using B = const Bands&;
        using A = const std::array<int, AGES>&;
        using O = const Band&;
        auto any = [](uint32_t, A) { return true; };
        return {
            is_good("good", [](B) { return true; }),
            is_good("1 band", [](B bands) { return bands.size() == 1; }),
            is_good("63 bands", [](B bands) { return bands.size() == 63; }),
            is_good("64 bands", [](B bands) { return bands.size() == 64; }),
            is_good("not in the order of ages", [](B bands) { return !is_ascending(bands); }),
            is_good("in it", [](B bands) { return bands.size() > 1 && is_ascending(bands); }),
            is_good("factor 5000", [](B bands) { return std::any_of(bands.begin(), bands.end(), [](O band) { return band.factor == 5000; }); }),
            is_good("factor 0", [](B bands) { return std::any_of(bands.begin(), bands.end(), [](O band) { return band.factor == 0; }); }),
            is_fault("25", 25, any),
            is_fault("at age 0", 25, [](uint32_t age, A) { return age == 0; }),
            is_fault("no band", 25, [](uint32_t, A cover) { return std::count(cover.begin(), cover.end(), 0) == AGES; }),
            is_fault("at 120", 25, [](uint32_t age, A) { return age == 120; }),
            is_fault("before an overlap", 25, [](uint32_t age, A cover) { return follows(cover, age, true); }),
            is_fault("before a gap", 25, [](uint32_t age, A cover) { return follows(cover, age, false); }),
            is_fault("26", 26, any),
            is_fault("at age 0", 26, [](uint32_t age, A) { return age == 0; }),
            is_fault("at 120", 26, [](uint32_t age, A) { return age == 120; }),
            is_fault("before a gap", 26, [](uint32_t age, A cover) { return follows(cover, age, false); }),
            is_fault("in three bands", 26, [](uint32_t age, A cover) { return cover[age] == 3; }),
            is_fault("in two, and higher in three", 26, [](uint32_t age, A cover) {
                return cover[age] == 2 && *std::max_element(cover.begin(), cover.end()) > 2;
            }),
            is_fault("in 60 and more", 26, [](uint32_t age, A cover) { return cover[age] >= 60; }),
            is_false("false by 3 n + 1 numbers alone", [](T table, O) { return table.length % BAND == 1; }),
            is_false("3 n + 2", [](T table, O) { return table.length % BAND == 2; }),
            is_false("65 bands", [](T table, O) { return table.length == 3 * 65; }),
            is_false("over 256", [](T table, O) { return table.length > 3 * 256; }),
            is_false("factor 5001", [](T, O band) { return band.factor == 5001; }),
            is_false("2^32 - 1", [](T, O band) { return band.factor == 0xffffffffu; }),
            is_false("65,536 and more", [](T, O band) { return band.factor >= 65536; }),
            is_false("last age 121", [](T, O band) { return band.first <= band.last && band.last == 121; }),
            is_false("both 121", [](T, O band) { return band.first == 121 && band.last == 121; }),
            is_false("both over 2^31", [](T, O band) { return band.first >= 0x80000000u && band.first <= band.last; }),
            is_false("last age 2^32 - 1", [](T, O band) { return band.last == 0xffffffffu; }),
            is_false("first age one over the last", [](T, O band) { return band.first == band.last + 1 && band.last <= MAX_AGE; }),
            is_false("farther over it", [](T, O band) { return band.first > band.last + 1 && band.first <= MAX_AGE; }),
        };
    }

    long tables = 0;
    Kinds<LentTable, Checked> kinds{all_kinds()};
};

class AgedTally {
public:
    void add(const AgedLending& lent, const Due& due) {
        calls++;
        priced.count(lent, due);
        refused.count(lent, due);
    }

    void print() const {
        std::cout << "pricing: " << calls << " calls for an age compared, ";
        priced.print(ENOUGH);
        std::cout << "\npricing: for an age, ";
        refused.print(ENOUGH);
        std::cout << "\n";
    }

private:
    static constexpr long ENOUGH = 10;

    using Kind = ::Kind<AgedLending, Due>;
    using L = const AgedLending&;
    using D = const Due&;

    using Condition = std::function<bool(const AgedLending& lent, const Checked& checked)>;

    // Priced, with such a factor.
    static Kind is_priced(const std::string& name, bool (*condition)(L lent, D due, uint32_t factor)) {
        return {name, [condition](L lent, D due) { return !due.refused() && condition(lent, due, factor_at(lent.table, lent.age)); }};
    }

    static Kind is_refused(const std::string& name, uint64_t number, const Condition& condition) {
        return {name, [=](L lent, D due) { return due.answer == c_refusal(number) && condition(lent, checked_of(lent.table)); }};
    }

    // Refused by 19 for the age alone, or for the table alone.
    static Kind has_bad_age(const std::string& name, uint32_t age) {
        return is_refused(name, 19, [age](L lent, const Checked& checked) { return Faults(lent).count() == 0 && checked.is_good() && lent.age == age; });
    }

    static bool has_false_table_alone(L lent, const Checked& checked) { return Faults(lent).count() == 0 && lent.age <= MAX_AGE && checked.is_false; }

    // Whether K1's lines would be refused by 20, on a good table.
    static bool goes_beyond(const AgedLending& lent) {
        AgedLending good = lent;
        good.table = table_of({{0, MAX_AGE, 1000}});
        return due_for_age(good).answer == c_refusal(20);
    }

    static bool any(L, const Checked&) { return true; }
    static bool has_fault(L, const Checked& checked) { return checked.number != 0; }
    static bool has_false_table(L, const Checked& checked) { return checked.is_false; }
    static bool has_bad_age_too(L lent, const Checked&) { return lent.age > MAX_AGE; }
    static bool is_elsewhere(L lent, const Checked& checked) { return checked.age != lent.age && Cover(lent.table).bands[lent.age] == 1; }
    static bool is_before_20(L lent, const Checked&) { return goes_beyond(lent); }
    static bool has_good_table_and_bad_base(L lent, const Checked& checked) { return checked.is_good() && (lent.base == -1 || lent.base == MAX_BASE + 1); }
    static bool has_fault_and_good_age(L lent, const Checked& checked) { return checked.number != 0 && lent.age <= MAX_AGE; }
    static bool has_fault_and_bad_age(L lent, const Checked& checked) { return checked.number != 0 && Faults(lent).count() == 0; }

    static bool is_end(L lent, bool last) {
        const Bands bands = lent.table.bands();
        return std::any_of(bands.begin(), bands.end(), [&](const Band& band) { return band.first < band.last && lent.age == (last ? band.last : band.first); });
    }

    static std::vector<Kind> priced_kinds() {
        return {
            is_priced("accepted", [](L, D, uint32_t) { return true; }),
            is_priced("of these with factor 0", [](L, D, uint32_t factor) { return factor == 0; }),
            is_priced("1000", [](L, D, uint32_t factor) { return factor == 1000; }),
            is_priced("5000", [](L, D, uint32_t factor) { return factor == 5000; }),
            is_priced("another over 1000", [](L, D, uint32_t factor) { return factor > 1000 && factor < 5000; }),
            is_priced("age 0", [](L lent, D, uint32_t) { return lent.age == 0; }),
            is_priced("120", [](L lent, D, uint32_t) { return lent.age == 120; }),
            is_priced("the first of a band", [](L lent, D, uint32_t) { return is_end(lent, false); }),
            is_priced("the last", [](L lent, D, uint32_t) { return is_end(lent, true); }),
            is_priced("1 band", [](L lent, D, uint32_t) { return lent.table.length == BAND; }),
            is_priced("64 bands", [](L lent, D, uint32_t) { return lent.table.length == BAND * 64; }),
            is_priced("no lines", [](L lent, D, uint32_t) { return lent.rates.length == 0; }),
            is_priced("a half", [](L lent, D, uint32_t factor) { return lent.base * factor % 1000 == 500; }),
            is_priced("just below one", [](L lent, D, uint32_t factor) { return lent.base * factor % 1000 == 499; }),
            is_priced("a scaled base over 10^9", [](L lent, D, uint32_t factor) { return scaled(lent.base, factor) > MAX_BASE; }),
            is_priced("over 32 bits", [](L lent, D, uint32_t factor) { return scaled(lent.base, factor) >> 32 > 0; }),
            is_priced("10^12 by a factor", [](L, D due, uint32_t factor) {
                return factor != 1000 && std::find(due.running.begin(), due.running.end(), MAX_RUNNING) != due.running.end();
            }),
        };
    }

    static std::vector<Kind> refused_kinds() {
        return {
            is_refused("refused by 11", 11, any),
            is_refused("with a fault", 11, has_fault),
            is_refused("a false table", 11, has_false_table),
            is_refused("by 12", 12, any),
            is_refused("with a fault", 12, has_fault),
            is_refused("a false table", 12, has_false_table),
            is_refused("by 14", 14, any),
            is_refused("with a fault", 14, has_fault),
            is_refused("a false table", 14, has_false_table),
            is_refused("a bad age", 14, has_bad_age_too),
            is_refused("by 19", 19, any),
            has_bad_age("for age 121 alone", 121),
            has_bad_age("2^32 - 1", 0xffffffffu),
            is_refused("for a false table alone", 19, has_false_table_alone),
            is_refused("for base -1 or 10^9 + 1", 19, has_good_table_and_bad_base),
            is_refused("for the list or base, with a fault", 19, has_fault_and_good_age),
            is_refused("for the age, with a fault", 19, has_fault_and_bad_age),
            is_refused("by 25", 25, any),
            is_refused("at another age alone", 25, is_elsewhere),
            is_refused("where 20 would follow", 25, is_before_20),
            is_refused("by 26", 26, any),
            is_refused("at another age alone", 26, is_elsewhere),
            is_refused("where 20 would follow", 26, is_before_20),
            is_refused("by 20", 20, any),
            {"10^12 + 1 by a factor", [](L lent, D due) {
                return due.answer == c_refusal(20) && due.running.back() == MAX_RUNNING + 1 && factor_at(lent.table, lent.age) != 1000;
            }},
        };
    }

    long calls = 0;
    Kinds<AgedLending, Due> priced{priced_kinds()}, refused{refused_kinds()};
};
