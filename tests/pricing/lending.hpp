// What a call that prices is lent, the library's call, and what its other calls tell of the session.
#pragma once
#include <array>
#include <cstddef>
#include <cstdint>
#include <tariff.h>
#include <vector>

#include "../support/library.hpp"
#include "../support/loan.hpp"

using Rates = std::vector<int32_t>;  // three numbers for each line

constexpr size_t LINE = 3;
constexpr int32_t AMOUNT = 0, THOUSANDTHS = 1;
static_assert(TARIFF_LINE_NUMBERS == LINE && TARIFF_AMOUNT == AMOUNT && TARIFF_THOUSANDTHS == THOUSANDTHS);

struct Line {
    int32_t literal = 0, kind = 0, value = 0;
};

struct Lending {
    Loan<uint32_t> book, session;
    int64_t base = 0;
    Loan<int32_t> rates;
    std::array<int64_t, 3> amounts{};  // the amount stands between two numbers that no call may write

    int64_t& amount() { return amounts[1]; }
    int64_t amount() const { return amounts[1]; }

    // As the book says where it is not at fault.
    int32_t variables() const { return static_cast<int32_t>(book.memory[0]); }

    // The whole lines that are lent.
    std::vector<Line> lines() const {
        std::vector<Line> list;
        list.reserve(rates.length / LINE);
        for (size_t i = 0; i + LINE <= rates.length; i += LINE) list.push_back({rates.memory[i], rates.memory[i + 1], rates.memory[i + 2]});
        return list;
    }
};

inline uint64_t by_library(Lending& lent) {
    return tariff_price(pointer_to(lent.book), lent.book.length, pointer_to(lent.session), lent.session.length, lent.base, pointer_to(lent.rates),
                        lent.rates.length, &lent.amount());
}

// What `tariff_trail_from` answers, and the settled literals that it writes; none where it refuses.
inline uint64_t copy_trail(const Lending& lent, Numbers& trail) {
    trail.resize(TARIFF_FEATURES);
    uint64_t answer = tariff_trail_from(lent.book.memory.data(), lent.book.length, lent.session.memory.data(), lent.session.length, 0, trail.data(),
                                        trail.size());
    trail.resize(tariff_kind(answer) == TARIFF_ACCEPTED ? tariff_number(answer) : 0);
    return answer;
}

// Whether the figures of a session that passes name a rule.
inline bool in_conflict(const Lending& lent) {
    Numbers figures(TARIFF_FIGURES);
    tariff_figures(lent.book.memory.data(), lent.book.length, lent.session.memory.data(), lent.session.length, figures.data(), figures.size());
    return figures[TARIFF_RULE] != 0;
}
