// What a call that checks a table is lent, the library's call, and the comparison with what K9 says of the table.
#pragma once
#include <array>
#include <cstddef>
#include <cstdint>
#include <functional>
#include <tariff.h>

#include "../support/loan.hpp"
#include "bands.hpp"

struct Checking {
    LentTable table;
    std::array<uint32_t, 3> ages{};  // the age stands between two numbers that no call may write

    uint32_t& age() { return ages[1]; }
    uint32_t age() const { return ages[1]; }
};

// A way to check: the library's call, or another one in its place.
using Checker = std::function<uint64_t(Checking&)>;

inline uint64_t check_by_library(Checking& lent) { return tariff_check_bands(lent.table.numbers(), lent.table.length, &lent.age()); }

constexpr uint64_t FALSE_TABLE = uint64_t{3} << 32;
static_assert(TARIFF_FALSE == 3);

inline uint64_t answer_of(const Checked& checked) { return checked.is_false ? FALSE_TABLE : checked.number == 0 ? 0 : c_refusal(checked.number); }

// Answers what was due. The disagreement begins with the name of what differs.
inline Checked compare_check(Checking lent, const Checker& check) {
    const Checking before = lent;
    Checked due = checked_of(lent.table);
    uint64_t answer = check(lent);
    compare_number(answer, answer_of(due), "answer with table numbers", lent.table.length);
    compare_number(tariff_good(answer), due.is_good(), "tariff_good with table numbers", lent.table.length);
    compare_number(lent.age(), due.number == 0 ? before.age() : due.age, "age with table numbers", lent.table.length);
    for (size_t i : {0, 2}) compare_number(lent.ages[i], before.ages[i], "number beside the age", i);
    compare_memory(lent.table.memory, before.table.memory, "number of the table");
    return due;
}
