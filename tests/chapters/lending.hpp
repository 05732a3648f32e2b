// What a call on chapters is lent.
#pragma once
#include <cstddef>
#include <cstdint>
#include <tariff.h>
#include <vector>

#include "../support/library.hpp"
#include "../support/loan.hpp"

using Sums = std::vector<uint64_t>;

constexpr size_t CHAPTERS = 32;
static_assert(TARIFF_CHAPTERS == CHAPTERS);

struct Lending {
    Loan<uint32_t> book, session, chapters;
    Loan<uint64_t> totals;

    // As the book says where it is not at fault.
    size_t variables() const { return book.memory[0]; }
    size_t clauses() const { return book.memory[1]; }

    // Behind V, C, L the book has the start of each clause in its literals.
    uint32_t literals(size_t clause) const { return book.memory[4 + clause] - book.memory[3 + clause]; }

    // The place of a clause's count of checks in the session, by docs/LAYOUT.md.
    size_t count_place(size_t clause) const { return 5 + 3 * variables() + 3 * clauses() + clause; }
};

inline uint64_t by_library(Lending& lent) {
    return tariff_chapters(lent.book.memory.data(), lent.book.length, lent.session.memory.data(), lent.session.length, lent.chapters.memory.data(),
                           lent.chapters.length, lent.totals.memory.data(), lent.totals.length);
}

// What `tariff_checks` answers, and the counts that it writes; none where it refuses.
inline uint64_t copy_counts(const Lending& lent, Numbers& counts) {
    counts.resize(TARIFF_RULES);
    uint64_t answer = tariff_checks(lent.book.memory.data(), lent.book.length, lent.session.memory.data(), lent.session.length, counts.data(),
                                    counts.size());
    counts.resize(tariff_kind(answer) == TARIFF_ACCEPTED ? tariff_number(answer) : 0);
    return answer;
}

// What `tariff_total` answers, and the sum that it writes.
inline uint64_t copy_total(const Lending& lent, uint64_t& sum) {
    return tariff_total(lent.book.memory.data(), lent.book.length, lent.session.memory.data(), lent.session.length, &sum);
}
