// Draws what a call is lent on a session: rate lists of many kinds, a base, damage, and faults in the list and the base.
#pragma once
#include <algorithm>
#include <cstddef>
#include <cstdint>
#include <cstdlib>
#include <initializer_list>
#include <limits>
#include <optional>
#include <vector>

#include "../support/lent_session.hpp"
#include "due.hpp"

class Draw {
public:
    Draw(Random& random, const Library& library) : Draw(random, library, Unlisted{}) {
        list();
        lend();
        refusal = parts.damage();
    }

    Lending lent;
    std::optional<uint64_t> refusal;  // the number by which the examination refuses, where it is known; 0 where it does not

protected:
    using Literals = std::vector<int32_t>;

    // The base and the list are still to be drawn and lent.
    struct Unlisted {};

    Draw(Random& random, const Library& library, Unlisted) : random(random), parts(random, library, lent.book, lent.session) {
        if (random.chance(5)) lengthen(lent.book, TARIFF_BOOK);
        if (random.chance(5)) lengthen(lent.session, TARIFF_SESSION);
        sort_literals();
    }

    int64_t wide_below(int64_t n) { return static_cast<int64_t>(random.next() % static_cast<uint64_t>(n)); }
    size_t below(size_t n) { return static_cast<size_t>(wide_below(static_cast<int64_t>(n))); }

    // More numbers than any book or session needs.
    void lengthen(Loan<uint32_t>& part, size_t most) {
        part.length = most + 1 + below(3);
        while (part.memory.size() < part.length) part.memory.push_back(static_cast<uint32_t>(random.next()));
    }

    // The literals of the book, or of a few variables of it and the last, by their states.
    void sort_literals() {
        Numbers trail;
        copy_trail(lent, trail);
        std::vector<int32_t> variables;
        for (int32_t variable = 1; variable <= lent.variables(); variable++) variables.push_back(variable);
        if (random.chance(40)) {
            random.shuffle(variables);
            variables.resize(std::min(variables.size(), size_t{3}));
            variables.push_back(lent.variables());
        }
        for (int32_t variable : variables)
            for (int32_t literal : {2 * variable, 2 * variable + 1}) {
                State state = state_of(trail, literal);
                (state == State::TRUE ? true_ones : state == State::FALSE ? false_ones : open_ones).push_back(literal);
            }
        if (random.chance(20) && !trail.empty()) true_ones.push_back(static_cast<int32_t>(random.chance(50) ? trail.back() : trail.front()));
    }

    int32_t one_of(const Literals& literals) {
        return literals.empty() ? random.between(2, 2 * lent.variables() + 1) : random.pick(literals);
    }

    // Of 100 lines, so many are on true literals if there are any; half of the others are on false ones.
    int32_t any_literal(int percent) { return one_of(random.chance(percent) ? true_ones : random.chance(50) ? false_ones : open_ones); }

    // Any, the first and last ones, or some that come to halves.
    int32_t any_thousandths() {
        static const std::vector<int32_t> edges{0, 1, 999, 1000, 1000}, halving{500, 500, 100, 300, 700, 900, 250, 750, 125, 145, 285, 575, 20, 4};
        int kind = random.below(10);
        int32_t value = kind < 2 ? random.pick(edges) : kind < 6 ? random.pick(halving) : random.below(1001);
        return random.sign(value);
    }

    int32_t any_amount() {
        static const std::vector<int32_t> edges{0, 1, 9999999, 10000000, 10000000};
        int kind = random.below(10);
        int32_t value = kind < 2 ? random.pick(edges) : kind < 7 ? random.below(1000) : random.below(10000001);
        return random.sign(value);
    }

    int64_t any_base() {
        static const std::vector<int64_t> edges{0, 0, 1, 5, 999999999, 1000000000, 1000000000};
        int kind = random.below(10);
        return kind < 3 ? random.pick(edges) : kind < 7 ? wide_below(10000) : wide_below(1000000001);
    }

    void add(Line line) { lines.push_back(line); }
    void add_amount(int64_t cents) { add({one_of(true_ones), AMOUNT, static_cast<int32_t>(cents)}); }
    void add_doublings(int count) {
        for (; count > 0; count--) add({one_of(true_ones), THOUSANDTHS, 1000});
    }

    // Of 100, so many are on true literals, and so many are amounts.
    Line any_line(int applied, int amounts) {
        int32_t literal = any_literal(applied);
        if (random.chance(amounts)) return {literal, AMOUNT, any_amount()};
        return {literal, THOUSANDTHS, any_thousandths()};
    }

    void add_any(size_t count) {
        int applied = random.pick(std::vector<int>{10, 50, 80, 100}), amounts = random.pick(std::vector<int>{0, 30, 50, 100});
        for (; count > 0; count--) add(any_line(applied, amounts));
    }

    // Lines that do not apply, between the others.
    void scatter(int count) {
        for (; count > 0; count--) {
            Line line = any_line(0, 50);
            lines.insert(lines.begin() + static_cast<std::ptrdiff_t>(below(lines.size() + 1)), line);
        }
    }

    // From such a number on the first whose product with the thousandths is a half, or next to one, if there is one.
    int64_t halved(int64_t from, int32_t thousandths) {
        int64_t rest = random.between(499, 501);
        for (int64_t number = from; number < from + 1000; number++)
            if (std::abs(number * thousandths) % 1000 == rest) return number;
        return from;
    }

    // A change that comes to a half or next to it, of the base or of an amount below zero, and a line behind it.
    void halve() {
        int32_t thousandths = any_thousandths();
        bool below_zero = random.chance(50);
        lent.base = below_zero ? 0 : halved(wide_below(random.chance(50) ? 100 : 999999000), thousandths);
        if (below_zero) add_amount(-halved(wide_below(random.chance(50) ? 100 : 9999000), thousandths));
        add({one_of(true_ones), THOUSANDTHS, thousandths});
        add_any(below(2));
    }

    // Just to the limit of the running amount, one cent before it, or one behind it.
    void climb() {
        int64_t short_of = wide_below(9000);
        lent.base = 976562500 - short_of;
        add_doublings(10);
        add_amount(1024 * short_of + random.between(-1, 1));
    }

    // The same below zero.
    void fall() {
        int64_t short_of = wide_below(2000);
        lent.base = wide_below(1000001);
        for (int i = 24; i > 0; i--) add_amount(-10000000);
        add_amount(-4140625 - lent.base + short_of);
        add_doublings(12);
        add_amount(-4096 * short_of + random.between(-1, 1));
    }

    // What comes behind the limit: nothing, a cent back, or all of it.
    void come_back() {
        int kind = random.below(4);
        if (kind == 1) add_amount(random.sign(random.between(1, 2)));
        if (kind == 2) add({one_of(true_ones), THOUSANDTHS, -1000});
        if (kind == 3) add_any(1 + below(3));
    }

    void list() {
        int kind = random.below(100);
        lent.base = any_base();
        if (kind < 20) add_any(below(12));
        if (kind >= 20 && kind < 45) halve();
        if (kind >= 45 && kind < 55) add_any(below(201));
        if (kind >= 55 && kind < 65) add_any(199 + below(2));
        if (kind >= 65 && kind < 80) climb();
        if (kind >= 80 && kind < 90) fall();
        if (kind >= 90) add_doublings(static_cast<int>(below(30)));
        if (kind >= 65) come_back();
        if (kind >= 65 && random.chance(50)) scatter(random.between(1, 8));
        if (random.chance(30)) spoil();
    }

    // One fault, or two.
    void spoil() {
        for (int faults = random.chance(80) ? 1 : 2; faults > 0; faults--) {
            int kind = random.below(10);
            if (kind < 2) lent.base = bad_base();
            if (kind == 2) add_any(bad_count() - std::min(lines.size(), size_t{200}));
            if (kind > 2 && lines.empty()) add_any(1);
            if (kind > 2) spoil_line();
        }
    }

    // The first ones outside, and those whose numbers are good in 10 or 16 bits.
    size_t bad_count() {
        int kind = random.below(100);
        return kind < 50 ? 201 + below(3) : kind < 88 ? 1024 + below(201) : 65536 + below(201);
    }

    int64_t bad_base() {
        static const std::vector<int64_t> edges{-1, -1, 1000000001, 1000000001, std::numeric_limits<int64_t>::min(), std::numeric_limits<int64_t>::max(),
                                                int64_t{1} << 32, -(int64_t{1} << 32), std::numeric_limits<int64_t>::min() + 1000};
        int64_t any = static_cast<int64_t>(random.next());
        return random.chance(85) || is_between(any, 0, MAX_BASE) ? random.pick(edges) : any;
    }

    // In the first line, the last, or any.
    void spoil_line() {
        Line& line = lines[random.chance(20) ? 0 : random.chance(40) ? lines.size() - 1 : below(lines.size())];
        int kind = random.below(10);
        if (kind < 4) line.literal = bad_literal();
        if (kind >= 4 && kind < 6) line.kind = bad_kind();
        if (kind >= 6) line.value = bad_value(line.kind);
    }

    // The first ones outside, those that are good in fewer bits or without their sign, or any.
    int32_t bad_literal() {
        int32_t last = 2 * lent.variables() + 1, good = one_of(true_ones);
        Literals edges{1, 1, last + 1, last + 1, last + 2, 0, -1, 1001, 1002, good + 65536, good - 65536, -good, std::numeric_limits<int32_t>::min(),
                       std::numeric_limits<int32_t>::min() + good, std::numeric_limits<int32_t>::max(), static_cast<int32_t>(random.next())};
        int32_t literal = random.pick(edges);
        return is_between(literal, 2, last) ? last + 1 : literal;
    }

    int32_t bad_kind() {
        return random.pick(Literals{2, 2, -1, -1, 3, 256, 257, 65536, std::numeric_limits<int32_t>::min(), std::numeric_limits<int32_t>::max()});
    }

    int32_t bad_value(int32_t kind) {
        int32_t most = static_cast<int32_t>(kind == AMOUNT ? MAX_AMOUNT : MAX_THOUSANDTHS);
        Literals edges{most + 1, most + 1, -most - 1, -most - 1, 65536 * 200, -65536 * 200, std::numeric_limits<int32_t>::min(),
                       std::numeric_limits<int32_t>::max()};
        return random.pick(edges);
    }

    // Behind the list the memory goes on with lines that would apply or are out of range; now and then a part of such a line is lent, too.
    void lend() {
        for (const Line& line : lines) lent.rates.memory.insert(lent.rates.memory.end(), {line.literal, line.kind, line.value});
        lent.rates.length = lent.rates.memory.size();
        Line behind{one_of(true_ones), AMOUNT, random.chance(50) ? any_amount() : bad_value(AMOUNT)};
        lent.rates.memory.insert(lent.rates.memory.end(), {behind.literal, behind.kind, behind.value, behind.literal, behind.kind, behind.value});
        if (random.chance(6)) lent.rates.length += 1 + below(2);
        for (int64_t& amount : lent.amounts) amount = static_cast<int64_t>(random.next());
        if (random.chance(30)) lent.amount() = random.pick(std::vector<int64_t>{0, lent.base, -1});
    }

    Random& random;
    LentSession parts;
    Literals true_ones, false_ones, open_ones;
    std::vector<Line> lines;
};
