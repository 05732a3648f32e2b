// The proved engine by its C calls: a book and a session in lent memory that is longer than needed.
#pragma once
#include <algorithm>
#include <cstddef>
#include <cstdint>
#include <numeric>
#include <string>
#include <tariff.h>
#include <vector>

#include "random.hpp"
#include "session.hpp"

using Numbers = std::vector<uint32_t>;
using Lookups = std::vector<uint64_t>;  // what was answered to the numbers below, in their order

// The places in the header of a session, and how many there are.
enum Place { TRAIL_LENGTH, DECISIONS, CONFLICT, BACKTRACKS, FIXED, HEADER };

// A call of a run: a decision on any number, or a backtrack or a fixing of any number.
struct Call {
    enum Kind { DECIDE, BACKTRACK, FIX };
    Kind kind = DECIDE;
    uint32_t number = 0;
};

// What lookups are made of: each number from 0 to V + 2 at its own place, and others that are no variable.
inline Numbers looked_up(uint32_t variables) {
    Numbers numbers(variables + 3);
    std::iota(numbers.begin(), numbers.end(), 0u);
    numbers.insert(numbers.end(), {0x80000000u, 0x80000001u, 0x80000000u + variables, 0xffffffffu});
    return numbers;
}

// What is seen of a session after a call.
struct Seen {
    Numbers numbers;     // all that were lent
    Numbers counts;      // the checks of each clause
    uint64_t total = 0;  // their sum
    Numbers figures;     // choices, take-backs, settled literals, the conflict clause
    uint64_t fixed = 0;  // fixed choices
};

// Lent memory that held anything before; what lies behind a need has to stay.
struct Lent {
    Numbers numbers, before;

    Lent(Random& random, size_t length) : numbers(length) {
        for (uint32_t& number : numbers) number = static_cast<uint32_t>(random.next());
        before = numbers;
    }
};

class Library {
public:
    Library(Random& random, const std::string& text) : book(random, TARIFF_BOOK), session(random, 0) {
        const uint8_t* bytes = reinterpret_cast<const uint8_t*>(text.data());
        accepted(tariff_read(bytes, text.size(), book.numbers.data(), TARIFF_BOOK), "the book");
        needed = tariff_number(accepted(tariff_required_length(book.numbers.data(), TARIFF_BOOK), "the required length"));
        session = Lent(random, needed + static_cast<size_t>(random.below(5)));
    }

    uint64_t open() { return tariff_open(book.numbers.data(), TARIFF_BOOK, session.numbers.data(), session.numbers.size()); }

    uint64_t take(const Call& call) {
        auto function = call.kind == Call::DECIDE ? tariff_decide : call.kind == Call::BACKTRACK ? tariff_backtrack : tariff_fix;
        return function(book.numbers.data(), TARIFF_BOOK, session.numbers.data(), session.numbers.size(), call.number);
    }

    Seen look() const {
        return {session.numbers, copied(tariff_checks, book.numbers[1]), total(), copied(tariff_figures, TARIFF_FIGURES), fixed()};
    }

    // The sum of all checks.
    uint64_t total() const {
        uint64_t sum = 0;
        accepted(tariff_total(book.numbers.data(), TARIFF_BOOK, session.numbers.data(), session.numbers.size(), &sum), "the total");
        return sum;
    }

    // The rule that the session's figures name; 0 out of contradiction.
    uint32_t conflict() const { return copied(tariff_figures, TARIFF_FIGURES)[TARIFF_RULE]; }

    uint64_t fixed() const { return tariff_fixed(book.numbers.data(), TARIFF_BOOK, session.numbers.data(), session.numbers.size()); }

    uint64_t lookup(uint32_t number) const {
        return tariff_lookup(book.numbers.data(), TARIFF_BOOK, session.numbers.data(), session.numbers.size(), number);
    }

    Lookups lookups() const {
        Lookups answers;
        for (uint32_t number : looked_up(variables())) answers.push_back(lookup(number));
        return answers;
    }

    // Whether it is time for all lookups: always where they examine up to so many numbers, and the more seldom the more they examine.
    bool lookups_due(Random& random, int numbers) const {
        size_t examined = variables() * (needed + 4 + book.numbers[1] + book.numbers[2]);
        return random.below(std::max(static_cast<int>(examined), numbers)) < numbers;
    }

    // From here on the session is lent with another number at a place.
    void lend(size_t place, uint32_t number) { session.numbers[place] = number; }

    // What a call answers that examines these numbers in place of the session's.
    uint64_t examine(const Numbers& numbers) const {
        Numbers figures(TARIFF_FIGURES);
        return tariff_figures(book.numbers.data(), TARIFF_BOOK, numbers.data(), numbers.size(), figures.data(), figures.size());
    }

    uint32_t variables() const { return book.numbers[0]; }
    size_t required_length() const { return needed; }
    const Lent& lent_book() const { return book; }
    const Lent& lent_session() const { return session; }

private:
    static uint64_t accepted(uint64_t answer, const std::string& call) {
        expect(tariff_kind(answer) == TARIFF_ACCEPTED, call + " is refused by " + std::to_string(tariff_number(answer)));
        return answer;
    }

    // What a call copies out: as many numbers as it says; one number more is lent, which has to stay.
    template <class Function>
    Numbers copied(Function function, size_t length) const {
        constexpr uint32_t FILLING = 0xa5a5a5a5u;
        Numbers out(length + 1, FILLING);
        uint64_t answer = function(book.numbers.data(), TARIFF_BOOK, session.numbers.data(), session.numbers.size(), out.data(), out.size());
        expect(tariff_number(accepted(answer, "a copy")) == length && out[length] == FILLING, "another length is copied");
        out.pop_back();
        return out;
    }

    Lent book, session;
    size_t needed = 0;
};
