// Draws what a quote is lent for a book and a script: places of many lengths, memory behind the parts, and damage to the book.
#pragma once
#include <cstddef>
#include <cstdint>
#include <optional>
#include <string>
#include <vector>

#include "../support/book_damage.hpp"
#include "due.hpp"

// What stands behind the lent bytes would be read as more of the script: another line, or more of the last one.
inline Loan<uint8_t> lend_script(Random& random, const std::string& script) {
    static const std::vector<std::string> behind = {"\nb 1\n", "b 1\nb 2\n", "1", " ", "\n"};
    std::string memory = script + random.pick(behind);
    return {{memory.begin(), memory.end()}, script.size()};
}

// A part of 0 to 5 places and two behind it, all of them with anything in them before.
inline Loan<uint32_t> lend_places(Random& random) {
    size_t length = static_cast<size_t>(random.below(6));
    return {Lent(random, QUOTED + length + 2).numbers, length};
}

// The book's memory; lent are the numbers it needs, all that a book may need, or one to three more behind these.
inline Loan<uint32_t> lend_book(Random& random, const Numbers& book, size_t need) {
    Loan<uint32_t> lent{book, random.chance(50) ? need : book.size()};
    if (!random.chance(20)) return lent;
    for (int more = random.between(1, 3); more > 0; more--) lent.memory.push_back(static_cast<uint32_t>(random.next()));
    lent.length = lent.memory.size();
    return lent;
}

// The numbers of a book that is not damaged are those of its text.
inline void compare_formulas(const Loan<uint32_t>& book, const Formula& read) {
    std::optional<Formula> numbers = formula_of(book);
    expect(numbers && numbers->variables == read.variables && numbers->clauses == read.clauses, "formula of the book is another");
}

// Where it is not known by which number the examination refuses, the numbers are read.
inline std::optional<Formula> formula_of_damaged(const Loan<uint32_t>& book, const std::optional<uint64_t>& refusal) {
    std::optional<Formula> formula = formula_of(book);
    expect(!refusal || !formula, "formula of a damaged book is read");
    return formula;
}

class Draw {
public:
    // The formula is that of the book's text.
    Draw(Random& random, const Library& library, const Formula& read, const std::string& script) : formula(read) {
        const Numbers& book = library.lent_book().numbers;
        size_t need = 4 + size_t{book[1]} + book[2];
        lent = {lend_book(random, book, need), lend_script(random, script), lend_places(random), random.next()};
        if (random.chance(50)) lent.ceiling = random.chance(50) ? 0 : ~uint64_t{0};
        compare_formulas(lent.book, read);
        if (random.chance(15)) formula = formula_of_damaged(lent.book, damage_book(random, lent.book, need));
    }

    Lending lent;
    std::optional<Formula> formula;
};
