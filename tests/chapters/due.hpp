// What K6 asks of a call, made from the counts that `tariff_checks` writes, and the comparison with what the call answered and left.
#pragma once
#include <algorithm>
#include <cstddef>
#include <cstdint>
#include <functional>
#include <numeric>
#include <optional>
#include <string>

#include "../counts/judge.hpp"
#include "lending.hpp"

// A way to file: the library's call, or another one in its place; and so for what the header says of its answer, and for the counts and the total that it
// is compared with.
using Method = std::function<uint64_t(Lending&)>;

struct Ways {
    Method file = by_library;
    std::function<uint32_t(uint64_t)> filed = tariff_filed;
    std::function<uint64_t(const Lending&, Numbers&)> counts = copy_counts;
    std::function<uint64_t(const Lending&, uint64_t&)> total = copy_total;
};

// The answers that are no refusals: true and false.
constexpr uint64_t FILED = 1, NOT_FILED = 0;

struct Due {
    uint64_t answer = NOT_FILED;
    Sums totals;                                                          // all of the memory
    Numbers counts{};                                                     // of each clause; none where the call is refused
    bool bad_chapter = false, few_chapters = false, few_totals = false;  // the causes of false

    int causes() const { return bad_chapter + few_chapters + few_totals; }
    bool refused() const { return tariff_kind(answer) == TARIFF_REFUSED; }
};

inline bool is_bad(uint32_t chapter) { return chapter > 31; }

// Whether one of the lent chapters of clauses is over 31; what lies behind the last clause's does not matter.
inline bool has_bad_chapter(const Lending& lent, size_t clauses) {
    auto first = lent.chapters.memory.begin();
    return std::any_of(first, first + static_cast<std::ptrdiff_t>(std::min(clauses, lent.chapters.length)), is_bad);
}

inline Due due_of(const Lending& lent, const Ways& ways = {}) {
    Due due{NOT_FILED, lent.totals.memory};
    uint64_t answer = ways.counts(lent, due.counts);
    if (tariff_kind(answer) == TARIFF_REFUSED) {
        due.answer = answer;
        return due;
    }
    due.bad_chapter = has_bad_chapter(lent, due.counts.size());
    due.few_chapters = lent.chapters.length < due.counts.size();
    due.few_totals = lent.totals.length < CHAPTERS;
    if (due.causes() > 0) return due;
    due.answer = FILED;
    std::fill_n(due.totals.begin(), CHAPTERS, 0);
    for (size_t clause = 0; clause < due.counts.size(); clause++) due.totals[lent.chapters.memory[clause]] += due.counts[clause];
    return due;
}

// The first 32 totals, which are written, are together what `tariff_total` writes of what was lent before.
inline void compare_sum(const Sums& totals, const Lending& before, const Ways& ways) {
    uint64_t sum = 0;
    compare_number(ways.total(before, sum), 0, "answer to the total", 0);
    compare_number(std::accumulate(totals.begin(), totals.begin() + CHAPTERS, uint64_t{0}), sum, "sum of totals", CHAPTERS);
}

// A call in one of these ways. Where it is known by which number the examination refuses, 0 where it does not, what is due is held to that. Answers what was
// due.
inline Due compare_filing(Lending lent, std::optional<uint64_t> refusal, const Ways& ways) {
    const Lending before = lent;
    Due due = due_of(lent, ways);
    if (refusal) compare_number(due.refused() ? tariff_number(due.answer) : 0, *refusal, "refusal of the checks", 0);
    uint64_t answer = ways.file(lent);
    compare_number(answer, due.answer, "answer with lent totals", lent.totals.length);
    compare_number(ways.filed(answer), due.answer == FILED, "what tariff_filed says with lent totals", lent.totals.length);
    compare_memory(lent.totals.memory, due.totals, "total");
    compare_memory(lent.book.memory, before.book.memory, "number of the book");
    compare_memory(lent.session.memory, before.session.memory, "number of the session");
    compare_memory(lent.chapters.memory, before.chapters.memory, "chapter of rule, from 0,");
    if (due.answer == FILED) compare_sum(lent.totals.memory, before, ways);
    return due;
}
