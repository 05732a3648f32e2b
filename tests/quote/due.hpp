// What K11 asks of a quote, and the comparison with what the call answered and left.
#pragma once
#include <algorithm>
#include <cstddef>
#include <cstdint>
#include <functional>
#include <optional>
#include <vector>

#include "../support/formula.hpp"
#include "backs.hpp"
#include "lending.hpp"

constexpr uint64_t MAX_BACK_LINES = 1000000;

// A way to quote: the library's call, or another one in its place.
using Method = std::function<uint64_t(Lending&)>;

struct Due {
    uint64_t answer = QUOTED;
    Numbers out;           // all of the memory
    uint64_t ceiling = 0;  // as it is afterwards
    uint64_t length = 0, worst = 0, backs = 0;

    bool refused() const { return tariff_kind(answer) == TARIFF_REFUSED; }
};

// The literals of a clause: up to 255, of the variables, no variable twice.
inline std::optional<Clause> clause_of(const Numbers& book, size_t from, size_t to, uint32_t variables) {
    Clause clause;
    if (from > to || to > book.size() || to - from > MAX_CLAUSE_LENGTH) return std::nullopt;
    for (size_t i = from; i < to; i++) {
        if (book[i] < 2 || book[i] > 2 * variables + 1) return std::nullopt;
        int literal = book[i] % 2 == 0 ? static_cast<int>(book[i] / 2) : -static_cast<int>(book[i] / 2);
        if (stands(clause, literal) || stands(clause, -literal)) return std::nullopt;
        clause.push_back(literal);
    }
    return clause;
}

// The formula of lent book numbers, by document 01 and K4, or nothing where they are at fault.
inline std::optional<Formula> formula_of(const Loan<uint32_t>& lent) {
    Numbers book(lent.memory.begin(), lent.memory.begin() + static_cast<std::ptrdiff_t>(lent.length));
    if (book.size() < 3 || book[0] < 1 || book[0] > MAX_VARIABLES || book[1] > MAX_CLAUSES || book[2] > MAX_LITERALS) return std::nullopt;
    size_t first = 4 + size_t{book[1]};
    if (book.size() < first + book[2] || book[3] != 0 || book[first - 1] != book[2]) return std::nullopt;
    book.resize(first + book[2]);
    Formula formula{static_cast<int>(book[0]), {}};
    for (size_t i = 3; i + 1 < first; i++) {
        std::optional<Clause> clause = clause_of(book, first + book[i], first + book[i + 1], book[0]);
        if (!clause) return std::nullopt;
        formula.clauses.push_back(*clause);
    }
    return formula;
}

inline uint64_t product(uint64_t worst, uint64_t backs) { return worst * (backs + 1); }

inline Due refused_by(const Lending& lent, uint64_t number) { return {c_refusal(number), lent.out.memory, lent.ceiling}; }

// The formula is that of the book's text; nothing where the book is at fault.
inline Due due_of(const Lending& lent, const std::optional<Formula>& formula) {
    if (!formula) return refused_by(lent, 11);
    uint64_t backs = back_lines(lent.lines());
    if (backs > MAX_BACK_LINES) return refused_by(lent, 17);
    Due due{QUOTED, lent.out.memory, 0};
    due.backs = backs;
    due.length = 5 + 5 * static_cast<uint64_t>(formula->variables) + 6 * formula->clauses.size();
    due.worst = check_ceiling(*formula);
    due.ceiling = product(due.worst, due.backs);
    std::vector<uint64_t> quoted{due.length, due.worst, due.backs};
    for (size_t i = 0; i < std::min(QUOTED, lent.out.length); i++) due.out[i] = static_cast<uint32_t>(quoted[i]);
    return due;
}

// A quote in one of these ways; answers what was due. The disagreement begins with the name of what differs.
inline Due compare_quote(Lending lent, const std::optional<Formula>& formula, const Method& quote) {
    const Lending before = lent;
    Due due = due_of(lent, formula);
    compare_number(quote(lent), due.answer, "answer with lent places", lent.out.length);
    compare_memory(lent.out.memory, due.out, "place");
    compare_number(lent.ceiling, due.ceiling, "ceiling with lent places", lent.out.length);
    compare_memory(lent.book.memory, before.book.memory, "number of the book");
    compare_memory(lent.script.memory, before.script.memory, "byte of the script");
    return due;
}
