// A book and a session as a call is lent them: calls that lead to a session, lengths as needed or longer, and damage.
#pragma once
#include <cstddef>
#include <cstdint>
#include <optional>

#include "book_damage.hpp"
#include "library.hpp"
#include "loan.hpp"

// Calls on random numbers, refused ones among them: decisions, backtracks and fixings.
inline void wander(Random& random, Library& library, int steps) {
    int last = 2 * static_cast<int>(library.variables()) + 1;
    for (; steps > 0; steps--) {
        int kind = random.below(100);
        if (kind < 80) library.take({Call::DECIDE, static_cast<uint32_t>(random.between(2, last))});
        if (kind >= 80 && kind < 95) library.take({Call::BACKTRACK, static_cast<uint32_t>(random.between(1, 3))});
        if (kind >= 95) library.take({Call::FIX, static_cast<uint32_t>(random.between(0, 2))});
    }
}

// Lends the library's book and session, in just as many numbers as needed, or in more.
class LentSession {
public:
    LentSession(Random& random, const Library& library, Loan<uint32_t>& book, Loan<uint32_t>& session) : random(random), book(book), session(session) {
        book = {library.lent_book().numbers, TARIFF_BOOK};
        session = {library.lent_session().numbers, library.lent_session().numbers.size()};
        book_need = 4 + size_t{book.memory[1]} + book.memory[2];
        session_need = library.required_length();
        if (random.chance(50)) book.length = book_need;
        if (random.chance(50)) session.length = session_need;
        if (random.chance(10)) lend_all();
        if (random.chance(5)) session.memory[BACKTRACKS] = 1000000;
    }

    // Now and then. The number by which the examination refuses, where it is known; 0 where nothing is damaged. A book at fault comes before the session,
    // damaged or not.
    std::optional<uint64_t> damage() {
        std::optional<uint64_t> refusal = 0;
        int kind = random.below(100);
        if (kind < 15) refusal = damage_session();
        if (kind >= 10 && kind < 25) refusal = damage_book(random, book, book_need);
        return refusal;
    }

private:
    // As many session numbers as any book needs.
    void lend_all() {
        while (session.memory.size() < TARIFF_SESSION) session.memory.push_back(static_cast<uint32_t>(random.next()));
        session.length = TARIFF_SESSION;
    }

    // Cut; or with more decisions fixed than are in force, or more literals on the trail than variables; or changed.
    std::optional<uint64_t> damage_session() {
        int kind = random.below(6);
        if (kind < 3) cut(random, session, session_need);
        if (kind == 3) session.memory[FIXED] = session.memory[DECISIONS] + 1;
        if (kind == 4) session.memory[TRAIL_LENGTH] = book.memory[0] + 1;
        return kind == 5 ? change(random, session, session_need) : 12;
    }

    Random& random;
    Loan<uint32_t>& book;
    Loan<uint32_t>& session;
    size_t book_need = 0, session_need = 0;
};
