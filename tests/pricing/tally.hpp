// How many calls of each kind were compared; each kind has to be met often enough.
#pragma once
#include <algorithm>
#include <cstddef>
#include <cstdint>
#include <iostream>
#include <limits>
#include <string>
#include <vector>

#include "../support/kinds.hpp"
#include "due.hpp"

class Tally {
public:
    void add(const Lending& lent, const Due& due) {
        calls++;
        priced.count(lent, due);
        refused.count(lent, due);
    }

    void print() const {
        std::cout << "pricing: " << calls << " calls compared, ";
        priced.print(ENOUGH);
        std::cout << "\npricing: ";
        refused.print(ENOUGH);
        std::cout << "\n";
    }

private:
    static constexpr long ENOUGH = 10;

    using Kind = ::Kind<Lending, Due>;

    template <class Condition>
    static Kind is_priced(const std::string& name, Condition condition) {
        return {name, [condition](const Lending& lent, const Due& due) { return !due.refused() && condition(lent, due); }};
    }

    template <class Condition>
    static Kind is_refused(const std::string& name, uint64_t number, Condition condition) {
        return {name, [=](const Lending& lent, const Due& due) { return due.answer == c_refusal(number) && condition(lent, due); }};
    }

    // Calls that are refused by 19 for one fault alone.
    template <class Condition>
    static Kind has_fault(const std::string& name, Condition condition) {
        return is_refused(name, 19, [condition](const Lending& lent, const Due&) {
            Faults faults(lent);
            return faults.count() == 1 && condition(lent, faults);
        });
    }

    // The same for a line alone.
    template <class Condition>
    static Kind has_bad_line(const std::string& name, Condition condition) {
        return has_fault(name, [condition](const Lending& lent, const Faults& faults) {
            return !faults.lines.empty() && condition(lent, faults.lines.front());
        });
    }

    // Calls in which an applied change comes to a product of this kind.
    template <class Condition>
    static Kind has_product(const std::string& name, Condition condition) {
        return is_priced(name, [condition](const Lending&, const Due& due) { return std::any_of(due.products.begin(), due.products.end(), condition); });
    }

    static bool has(const std::vector<int64_t>& numbers, int64_t number) { return std::find(numbers.begin(), numbers.end(), number) != numbers.end(); }

    static bool has_assigned_all(const Lending& lent, const Due&) { return lent.session.memory[TRAIL_LENGTH] == lent.book.memory[0]; }

    static bool applies_to(const Lending& lent, const Due& due, int32_t literal) {
        std::vector<Line> lines = lent.lines();
        for (size_t i = 0; i < due.states.size(); i++)
            if (lines[i].literal == literal && due.states[i] == State::TRUE) return true;
        return false;
    }

    static std::vector<Kind> priced_kinds() {
        using L = const Lending&;
        using D = const Due&;
        return {
            is_priced("accepted", [](L, D) { return true; }),
            is_priced("of these with no lines", [](L lent, D) { return lent.rates.length == 0; }),
            is_priced("1 line", [](L, D due) { return due.states.size() == 1; }),
            is_priced("200 lines", [](L, D due) { return due.states.size() == 200; }),
            is_priced("V 1", [](L lent, D) { return lent.variables() == 1; }),
            is_priced("V 500", [](L lent, D) { return lent.variables() == 500; }),
            is_priced("the motor tariff", [](L lent, D) { return lent.book.memory[0] == 64 && lent.book.memory[1] == 159; }),
            is_priced("all features settled", has_assigned_all),
            is_priced("all of 500", [](L lent, D due) { return lent.variables() == 500 && has_assigned_all(lent, due); }),
            is_priced("literal 2 true", [](L lent, D due) { return applies_to(lent, due, 2); }),
            is_priced("literal 2 V + 1 true", [](L lent, D due) { return applies_to(lent, due, 2 * lent.variables() + 1); }),
            is_priced("literal 1001 true", [](L lent, D due) { return applies_to(lent, due, 1001); }),
            is_priced("no line applied", [](L, D due) { return !due.states.empty() && std::count(due.states.begin(), due.states.end(), State::TRUE) == 0; }),
            is_priced("open lines", [](L, D due) { return due.answer > 0; }),
            is_priced("over 127 open lines", [](L, D due) { return due.answer > 127; }),
            is_priced("base 0", [](L lent, D) { return lent.base == 0; }),
            is_priced("base 1,000,000,000", [](L lent, D) { return lent.base == MAX_BASE; }),
            is_priced("an amount below 0", [](L, D due) { return due.amount < 0; }),
            is_priced("an amount over 32 bits", [](L, D due) { return due.amount >> 32 > 0; }),
            is_priced("a running amount of 10^12", [](L, D due) { return has(due.running, MAX_RUNNING); }),
            is_priced("a running amount of -10^12", [](L, D due) { return has(due.running, -MAX_RUNNING); }),
            has_product("a half above 0", [](int64_t product) { return product % 1000 == 500; }),
            has_product("a half below 0", [](int64_t product) { return product % 1000 == -500; }),
            is_priced("take-backs", [](L lent, D) { return lent.session.memory[BACKTRACKS] != 0; }),
            is_priced("fixed choices", [](L lent, D) { return lent.session.memory[FIXED] != 0; }),
            is_priced("over 7,504 book numbers", [](L lent, D) { return lent.book.length > TARIFF_BOOK; }),
            is_priced("over 11,505 session numbers", [](L lent, D) { return lent.session.length > TARIFF_SESSION; }),
        };
    }

    static std::vector<Kind> refused_kinds() {
        using L = const Lending&;
        using D = const Due&;
        using F = const Faults&;
        using Wrong = const Line&;
        auto any = [](L, D) { return true; };
        auto last_over = [](L, D due) { return due.running.back() > 0; };
        return {
            is_refused("refused by 11", 11, any),
            is_refused("by 12", 12, any),
            is_refused("by 14", 14, any),
            is_refused("with a base or list at fault", 14, [](L lent, D) { return Faults(lent).count() > 0; }),
            is_refused("by 19", 19, any),
            has_fault("for base -1 alone", [](L lent, F) { return lent.base == -1; }),
            has_fault("10^9 + 1", [](L lent, F) { return lent.base == MAX_BASE + 1; }),
            has_fault("-2^63", [](L lent, F) { return lent.base == std::numeric_limits<int64_t>::min(); }),
            has_fault("2^63 - 1", [](L lent, F) { return lent.base == std::numeric_limits<int64_t>::max(); }),
            has_fault("201 lines", [](L lent, F) { return lent.rates.length == 603; }),
            has_fault("1,024 to 1,224", [](L lent, F) { return is_between(static_cast<int64_t>(lent.rates.length), LINE * 1024, LINE * 1224); }),
            has_fault("65,536 and more", [](L lent, F) { return lent.rates.length >= LINE * 65536; }),
            has_fault("3 n + 1 numbers", [](L lent, F) { return lent.rates.length % LINE == 1; }),
            has_fault("3 n + 2", [](L lent, F) { return lent.rates.length % LINE == 2; }),
            has_bad_line("literal 1", [](L, Wrong line) { return line.literal == 1; }),
            has_bad_line("0", [](L, Wrong line) { return line.literal == 0; }),
            has_bad_line("below 0", [](L, Wrong line) { return line.literal < 0; }),
            has_bad_line("2 V + 2", [](L lent, Wrong line) { return line.literal == 2 * lent.variables() + 2; }),
            has_bad_line("kind 2", [](L, Wrong line) { return line.kind == 2; }),
            has_bad_line("-1", [](L, Wrong line) { return line.kind == -1; }),
            has_bad_line("amount 10^7 + 1", [](L, Wrong line) { return line.kind == AMOUNT && line.value == MAX_AMOUNT + 1; }),
            has_bad_line("-10^7 - 1", [](L, Wrong line) { return line.kind == AMOUNT && line.value == -MAX_AMOUNT - 1; }),
            has_bad_line("1001 thousandths", [](L, Wrong line) { return line.kind == THOUSANDTHS && line.value == MAX_THOUSANDTHS + 1; }),
            has_bad_line("-1001", [](L, Wrong line) { return line.kind == THOUSANDTHS && line.value == -MAX_THOUSANDTHS - 1; }),
            is_refused("by 20", 20, any),
            is_refused("above 0", 20, last_over),
            is_refused("10^12 + 1", 20, [](L, D due) { return due.running.back() == MAX_RUNNING + 1; }),
            is_refused("-10^12 - 1", 20, [](L, D due) { return due.running.back() == -MAX_RUNNING - 1; }),
            is_refused("before the last line", 20, [](L lent, D due) { return due.running.size() < lent.lines().size(); }),
        };
    }

    long calls = 0;
    Kinds<Lending, Due> priced{priced_kinds()}, refused{refused_kinds()};
};
