// What a quote is lent, and the library's call.
#pragma once
#include <cstddef>
#include <cstdint>
#include <string>
#include <tariff.h>

#include "../support/library.hpp"
#include "../support/loan.hpp"

// The places of a quote's numbers.
constexpr size_t QUOTED = 3;
static_assert(TARIFF_QUOTED == QUOTED && TARIFF_QUOTED_LENGTH == 0 && TARIFF_QUOTED_WORST == 1 && TARIFF_QUOTED_BACK_LINES == 2);

struct Lending {
    Loan<uint32_t> book;
    Loan<uint8_t> script;
    Loan<uint32_t> out;
    uint64_t ceiling = 0;

    std::string lines() const { return std::string(script.memory.begin(), script.memory.begin() + static_cast<std::ptrdiff_t>(script.length)); }
};

inline uint64_t by_library(Lending& lent) {
    return tariff_quote(pointer_to(lent.book), lent.book.length, pointer_to(lent.script), lent.script.length, pointer_to(lent.out), lent.out.length,
                        &lent.ceiling);
}
