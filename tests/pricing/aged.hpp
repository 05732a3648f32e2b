// What a call that prices for an age is lent, the library's call, what K9 asks of it, and the comparison with what it answered and left.
#pragma once
#include <cstdint>
#include <functional>
#include <iostream>
#include <optional>
#include <tariff.h>

#include "bands.hpp"
#include "due.hpp"

struct AgedLending : Lending {
    LentTable table{};
    uint32_t age = 0;
};

// A way to price for an age: the library's call, or another one in its place.
using AgedMethod = std::function<uint64_t(AgedLending&)>;

inline uint64_t for_age_by_library(AgedLending& lent) {
    return tariff_price_for_age(pointer_to(lent.book), lent.book.length, pointer_to(lent.session), lent.session.length, lent.base, lent.table.numbers(),
                                lent.table.length, lent.age, pointer_to(lent.rates), lent.rates.length, &lent.amount());
}

// Halves up; the product is at least 0 and has up to 43 bits.
inline int64_t scaled(int64_t base, uint32_t factor) { return (base * factor + 500) / 1000; }

// Of a good table.
inline uint32_t factor_at(const LentTable& table, uint32_t age) { return Cover(table).factors[age]; }

// K1's lines, from the scaled base on.
inline Due due_for_age(const AgedLending& lent) {
    Numbers trail;
    uint64_t answer = copy_trail(lent, trail);
    const Checked checked = checked_of(lent.table);
    if (tariff_kind(answer) == TARIFF_REFUSED) return {answer, lent.amount()};
    if (in_conflict(lent)) return {c_refusal(14), lent.amount()};
    if (Faults(lent).count() > 0 || lent.age > MAX_AGE || checked.is_false) return {c_refusal(19), lent.amount()};
    if (!checked.is_good()) return {c_refusal(checked.number), lent.amount()};
    return apply_lines(scaled(lent.base, factor_at(lent.table, lent.age)), lent, trail, by_llroundl);
}

// Answers what was due. The disagreement begins with the name of what differs.
inline Due compare_for_age(AgedLending lent, std::optional<uint64_t> refusal, const AgedMethod& price) {
    const AgedLending before = lent;
    Due due = due_for_age(lent);
    compare_refusal(due, refusal);
    uint64_t answer = price(lent);
    compare_call(answer, lent, before, due);
    compare_memory(lent.table.memory, before.table.memory, "number of the table");
    return due;
}

// Fractions confirm the scaled bases: small ones by all factors, and great ones.
inline void check_scaling() {
    long confirmed = 0;
    for (int64_t from : {int64_t{0}, int64_t{12340}, MAX_BASE - 20})
        for (int64_t base = from; base <= from + 20; base++)
            for (uint32_t factor = 0; factor <= MAX_FACTOR; factor++, confirmed++)
                compare_rounding(Wide{base} * factor, [&](Wide) { return scaled(base, factor); });
    std::cout << "pricing: " << confirmed << " scaled bases confirmed by fractions" << std::endl;
}
