// Damage to lent numbers, and to those of a book.
#pragma once
#include <cstddef>
#include <cstdint>
#include <optional>
#include <vector>

#include "library.hpp"
#include "loan.hpp"

// Fewer numbers than needed.
inline void cut(Random& random, Loan<uint32_t>& part, size_t need) {
    part.length = random.pick(std::vector<size_t>{0, need - 1, static_cast<size_t>(random.below(static_cast<int>(need)))});
}

// Any one of the numbers needed is another, and what the examination says of it is not known.
inline std::optional<uint64_t> change(Random& random, Loan<uint32_t>& part, size_t need) {
    uint32_t& number = part.memory[static_cast<size_t>(random.below(static_cast<int>(need)))];
    number = random.chance(50) ? static_cast<uint32_t>(random.next()) : static_cast<uint32_t>(random.below(4));
    return std::nullopt;
}

// Cut; or with V or C out of range, or another L than the literals are; or changed. The number by which the examination refuses, where it is known.
inline std::optional<uint64_t> damage_book(Random& random, Loan<uint32_t>& book, size_t need) {
    int kind = random.below(7);
    if (kind < 3) cut(random, book, need);
    if (kind == 3) book.memory[0] = random.chance(50) ? 0 : TARIFF_FEATURES + 1;
    if (kind == 4) book.memory[1] = random.chance(50) ? TARIFF_RULES + 1 : 0xffffffffu;
    if (kind == 5) book.memory[2]++;
    return kind == 6 ? change(random, book, need) : 11;
}
