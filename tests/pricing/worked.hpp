// Calls whose answers were worked out by hand: the values of K1's page, both sides of each limit, halves, the order of refusals, and open lines.
#pragma once
#include <cstddef>
#include <cstdint>
#include <initializer_list>
#include <limits>
#include <string>
#include <utility>
#include <vector>

#include "../counts/run.hpp"
#include "due.hpp"

// A book, and the decisions in force in a session on it.
struct Situation {
    Formula formula;
    std::vector<int> decisions;
};

struct Worked {
    std::string name;
    Situation situation;
    int64_t base;
    Rates rates;
    uint64_t answer;     // the open lines, or a refusal
    int64_t amount = 0;  // of no meaning where it is refused
};

using Worklist = std::vector<Worked>;

constexpr int32_t LEAST = std::numeric_limits<int32_t>::min(), GREATEST = std::numeric_limits<int32_t>::max();

inline Rates cents(int literal, int32_t amount) { return {static_cast<int32_t>(literal_number(literal)), AMOUNT, amount}; }
inline Rates parts(int literal, int32_t thousandths) { return {static_cast<int32_t>(literal_number(literal)), THOUSANDTHS, thousandths}; }

inline Rates joined(std::initializer_list<Rates> lines) {
    Rates all;
    for (const Rates& line : lines) all.insert(all.end(), line.begin(), line.end());
    return all;
}

inline Rates times(int count, const Rates& line) {
    Rates all;
    for (; count > 0; count--) all.insert(all.end(), line.begin(), line.end());
    return all;
}

// Document 01's listing.
inline Formula listing() { return {4, {{1, 2, 3}, {-3, 4}, {-4, -2, 1}}}; }

// One feature, which is wanted, and four, of which the first is barred and the others are open.
inline Situation positive() { return {{1, {}}, {1}}; }
inline Situation negative() { return {{4, {}}, {-1}}; }

inline Situation conflicting() { return {{2, {{1, 2}, {1, -2}}}, {-1}}; }

// The values of K1's page.
inline Worklist page_values() {
    const Rates list = joined({cents(2, 2500), parts(-1, -75), cents(1, 99999), parts(-4, 125), parts(3, 500)});
    const Rates reversed = joined({parts(3, 500), parts(-4, 125), cents(1, 99999), parts(-1, -75), cents(2, 2500)});
    const Rates to_the_limit = times(10, parts(1, 1000));
    const Rates below_zero = joined({times(24, cents(1, -10000000)), cents(1, -4140625), times(12, parts(1, 1000))});
    const Rates open_lines = joined({cents(2, 9), cents(-2, 9), cents(1, 9), cents(-1, 9), parts(2, 10)});
    return {
        {"the listing, all settled", {listing(), {-1, -3}}, 12345, list, 0, 15449},
        {"its list reversed", {listing(), {-1, -3}}, 12345, reversed, 0, 15346},
        {"after -1 only", {listing(), {-1}}, 12345, list, 3, 11419},
        {"an amount first", positive(), 1000, joined({cents(1, 1000), parts(1, 100)}), 0, 2200},
        {"thousandths first", positive(), 1000, joined({parts(1, 100), cents(1, 1000)}), 0, 2100},
        {"5 at -100", positive(), 5, parts(1, -100), 0, 4},
        {"-5 at 100", positive(), 100, joined({cents(1, -105), parts(1, 100)}), 0, -6},
        {"-5 at -100", positive(), 100, joined({cents(1, -105), parts(1, -100)}), 0, -4},
        {"open lines", negative(), 0, open_lines, 3, 9},
        {"just the limit", positive(), 976562500, to_the_limit, 0, 1000000000000},
        {"one above it", positive(), 976562500, joined({to_the_limit, cents(1, 1)}), c_refusal(20)},
        {"one above it and back", positive(), 976562500, joined({to_the_limit, cents(1, 1), cents(1, -1)}), c_refusal(20)},
        {"just the limit below zero", positive(), 0, below_zero, 0, -1000000000000},
        {"one below it", positive(), 0, joined({below_zero, cents(1, -1)}), c_refusal(20)},
        {"one below it and back", positive(), 0, joined({below_zero, cents(1, -1), cents(1, 1)}), c_refusal(20)},
        {"14 with base -1", conflicting(), -1, {}, c_refusal(14)},
        {"20 at line 11, 19 at line 12", positive(), 976562500, joined({to_the_limit, cents(1, 1), cents(1, 10000001)}), c_refusal(19)},
        {"19 at a false line", positive(), 0, cents(-1, 10000001), c_refusal(19)},
        {"no lines", positive(), 77, {}, 0, 77},
    };
}

// The base and the list.
inline Worklist list_limits() {
    const Rates some = joined({cents(1, 5), cents(1, 6)});
    auto first = [&](size_t numbers) { return Rates(some.begin(), some.begin() + static_cast<std::ptrdiff_t>(numbers)); };
    auto at_base = [](int64_t base, uint64_t answer) { return Worked{"base " + std::to_string(base), positive(), base, {}, answer, base}; };
    auto of_lines = [](int count, const Rates& line, uint64_t answer, int64_t amount) {
        return Worked{std::to_string(count) + " lines", negative(), 0, times(count, line), answer, amount};
    };
    Worklist list{
        at_base(0, 0),
        at_base(1000000000, 0),
        at_base(-1, c_refusal(19)),
        at_base(1000000001, c_refusal(19)),
        at_base(std::numeric_limits<int64_t>::min(), c_refusal(19)),
        at_base(std::numeric_limits<int64_t>::max(), c_refusal(19)),
        at_base(int64_t{1} << 32, c_refusal(19)),
        of_lines(199, cents(-1, 1), 0, 199),
        of_lines(200, cents(-1, 1), 0, 200),
        of_lines(200, cents(1, 1), 0, 0),
        of_lines(200, cents(2, 1), 200, 0),
        of_lines(200, parts(-2, 1), 200, 0),
    };
    for (const Rates& line : {cents(-1, 1), cents(1, 1), cents(2, 1)})
        for (int count : {201, 202, 300}) list.push_back(of_lines(count, line, c_refusal(19), 0));
    // The last three are a single line where their numbers are counted in 8, 10 and 16 bits.
    for (int count : {301, 1000, 257, 1025, 65537}) list.push_back(of_lines(count, cents(-1, 1), c_refusal(19), 0));
    for (size_t numbers : {1, 2, 4, 5}) list.push_back({"a part of a line", positive(), 0, first(numbers), c_refusal(19)});
    for (size_t numbers : {1, 2})
        list.push_back({"200 lines and a part of one", positive(), 0, joined({times(200, cents(1, 0)), first(numbers)}), c_refusal(19)});
    list.push_back({"two lines", positive(), 0, some, 0, 11});
    return list;
}

// Literals on both sides of 2 and 2 V + 1, on a book of one feature, of four, and of 500.
inline Worklist literal_limits() {
    Worklist list;
    for (int variables : {1, 4, 500}) {
        for (int decision : {variables, -variables}) {
            Situation last{{variables, {}}, {decision}};
            bool single = variables == 1, is_positive = decision > 0;
            auto on = [](int32_t literal) { return Rates{literal, AMOUNT, 7}; };
            list.push_back({"literal 2", last, 1, on(2), single ? 0u : 1u, single && is_positive ? 8 : 1});
            list.push_back({"literal 3", last, 1, on(3), single ? 0u : 1u, single && !is_positive ? 8 : 1});
            list.push_back({"literal 2 V", last, 1, on(2 * variables), 0, is_positive ? 8 : 1});
            list.push_back({"literal 2 V + 1", last, 1, on(2 * variables + 1), 0, is_positive ? 1 : 8});
            for (int32_t literal : {1, 0, -1, -2, -3, -2 * variables, LEAST, LEAST + 2, GREATEST, 2 * variables + 2, 2 * variables + 3, 65538, 1002})
                list.push_back({"literal " + std::to_string(literal), last, 1, on(literal), c_refusal(19)});
        }
    }
    return list;
}

// Amounts, thousandths and kinds, on a literal that is true, false and open; where it is true, a line adds this to 1,000 cents.
inline Worklist value_limits() {
    Worklist list;
    for (int literal : {-1, 1, 2}) {
        auto put = [&](const Rates& line, uint64_t answer, int64_t amount) {
            list.push_back({"kind and value " + std::to_string(line[1]) + " " + std::to_string(line[2]), negative(), 1000, line, answer, amount});
        };
        auto added = [&](const Rates& line, int64_t addend) { put(line, literal == 2 ? 1 : 0, literal < 0 ? 1000 + addend : 1000); };
        auto refused = [&](const Rates& line) { put(line, c_refusal(19), 0); };
        for (int32_t amount : {0, 1, -1, 9999999, -9999999, 10000000, -10000000}) added(cents(literal, amount), amount);
        for (int32_t thousandths : {0, 1000, -1000, 999, -999}) added(parts(literal, thousandths), thousandths);
        for (int32_t amount : {10000001, -10000001, LEAST, GREATEST, 13107200}) refused(cents(literal, amount));
        for (int32_t thousandths : {1001, -1001, 65536, -65536, 10000000, -10000000, LEAST, GREATEST}) refused(parts(literal, thousandths));
        for (int32_t kind : {2, -1, 3, 256, 257, 65536, LEAST, GREATEST})
            for (int32_t value : {0, 5}) refused({cents(literal, 0).front(), kind, value});
    }
    return list;
}

// Rounding: a start in cents on either side of zero, thousandths, and what comes of them.
inline Worklist halves() {
    struct Half {
        int32_t start, thousandths, amount;
    };
    Worklist list;
    for (const Half& half : std::initializer_list<Half>{
             {5, 100, 6}, {15, 100, 17}, {25, 100, 28}, {15, -100, 13}, {25, -100, 22}, {4, 100, 4}, {6, 100, 7}, {6, -100, 5}, {499, 1, 499},
             {500, 1, 501}, {501, 1, 502}, {1499, 1, 1500}, {1500, 1, 1502}, {2500, 1, 2503}, {499, -1, 499}, {500, -1, 499}, {501, -1, 500},
             {1499, -1, 1498}, {1500, -1, 1498}, {2500, -1, 2497}, {25, 580, 40}, {45, 700, 77}, {1, 500, 2}, {3, 500, 5}, {1, -500, 0}, {3, -500, 1},
             {1, 1000, 2}, {1, 499, 1}, {1, 501, 2}, {1, -499, 1}, {1, -501, 0}, {7, -1000, 0}, {40, 125, 45}, {44, 125, 50}, {5000000, 999, 9995000}})
        for (int sign : {1, -1}) {
            std::string name = std::to_string(sign * half.start) + " at " + std::to_string(half.thousandths);
            Rates rates = joined({cents(1, sign * half.start), parts(1, half.thousandths)});
            list.push_back({name, positive(), 0, rates, 0, sign * half.amount});
        }
    return list;
}

// The running amount at its limit and beyond, what comes behind that, and 20 beside 19 and 14.
inline Worklist orders() {
    const int64_t base = 976562500;
    const Rates up = times(10, parts(1, 1000)), over = joined({up, cents(1, 1)});
    const Rates down = joined({times(24, cents(1, -10000000)), cents(1, -4140625), times(12, parts(1, 1000))}), under = joined({down, cents(1, -1)});
    const Situation conflict = conflicting();
    auto beyond = [&](const std::string& name, const Rates& behind) {
        return Worklist{{"over, " + name, positive(), base, joined({over, behind}), c_refusal(20)},
                        {"under, " + name, positive(), 0, joined({under, behind}), c_refusal(20)}};
    };
    Worklist list{
        {"one before the limit", positive(), base, joined({up, cents(1, -1)}), 0, 999999999999},
        {"one before it below zero", positive(), 0, joined({down, cents(1, 1)}), 0, -999999999999},
        {"the limit and a tenth less", positive(), base, joined({up, parts(1, -100)}), 0, 900000000000},
        {"the limit and all back", positive(), base, joined({up, parts(1, -1000), cents(1, 3)}), 0, 3},
        {"a thousandth over the limit", positive(), base, joined({up, parts(1, 1)}), c_refusal(20)},
        {"a thousandth under it", positive(), 0, joined({down, parts(1, 1)}), c_refusal(20)},
        {"a line that does not apply at the limit", positive(), base, joined({up, cents(-1, 1), parts(-1, 1000)}), 0, 1000000000000},
        {"from 1, 39 times doubled", positive(), 1, times(39, parts(1, 1000)), 0, 549755813888},
        {"from 1, 40 times doubled", positive(), 1, times(40, parts(1, 1000)), c_refusal(20)},
        {"from 1, 200 times doubled", positive(), 1, times(200, parts(1, 1000)), c_refusal(20)},
        {"20, then 19 by a literal", positive(), base, joined({over, {1, AMOUNT, 0}}), c_refusal(19)},
        {"19 by a kind, then 20", positive(), base, joined({{2, 2, 0}, over}), c_refusal(19)},
        {"20 and a list of 201", positive(), base, joined({over, times(190, cents(1, 0))}), c_refusal(19)},
        {"20 and a part of a line", positive(), base, joined({over, {2}}), c_refusal(19)},
        {"14 before 19 by the list", conflict, 0, times(201, cents(1, 0)), c_refusal(14)},
        {"14 before 19 by a line", conflict, 0, {1, AMOUNT, 0}, c_refusal(14)},
        {"14 before 20", conflict, base, times(11, parts(-1, 1000)), c_refusal(14)},
        {"14 with no lines", conflict, 0, {}, c_refusal(14)},
        {"14 at the opening", {{1, {{1}, {-1}}}, {}}, 5, cents(1, 1), c_refusal(14)},
    };
    for (const Rates& behind : {cents(1, 0), cents(-1, 1), parts(1, -100), parts(1, -1000), joined({cents(1, 10000000), cents(1, -10000000)})})
        for (const Worked& one : beyond("and behind it " + std::to_string(behind[2]), behind)) list.push_back(one);
    return list;
}

// All of the most features, barred one after the other.
inline Situation all_negative() {
    Situation situation{{MAX_VARIABLES, {}}, {}};
    for (int variable = 1; variable <= MAX_VARIABLES; variable++) situation.decisions.push_back(-variable);
    return situation;
}

// Open lines, by feature and literal, and lines that apply twice.
inline Worklist counts() {
    return {
        {"all open", {listing(), {}}, 9, joined({cents(1, 1), parts(-2, 1000), cents(3, 1), cents(-4, 1)}), 4, 9},
        {"one feature, five lines", {listing(), {}}, 9, joined({times(3, cents(1, 1)), times(2, cents(-1, 1))}), 5, 9},
        {"true, false and open", negative(), 9, joined({cents(1, 1), cents(-1, 1), cents(2, 1), cents(2, 1), cents(-2, 1)}), 3, 10},
        {"a line that applies three times", negative(), 10, times(3, parts(-1, 500)), 0, 35},
        {"150 open lines", negative(), 10, joined({times(150, cents(3, 1)), times(50, cents(-1, 1))}), 150, 60},
        {"all of 500 open", {{500, {}}, {}}, 3, joined({cents(1, 1), cents(-500, 1)}), 2, 3},
        {"all of 500 settled", all_negative(), 0, joined({cents(-1, 1), cents(-500, 10), cents(500, 100), cents(-250, 1000)}), 0, 1011},
        {"what a decision forces", {{3, {{-1, 2}, {-2, -3}}}, {1}}, 0, joined({cents(1, 1), cents(2, 10), cents(-3, 100), cents(3, 1000)}), 0, 111},
        {"what the opening forces", {{2, {{-2}}}, {}}, 0, joined({cents(-2, 10), cents(2, 100), cents(1, 1000)}), 1, 10},
    };
}

inline Worklist worked_values() {
    Worklist all = page_values();
    for (const Worklist& more : {list_limits(), literal_limits(), value_limits(), halves(), orders(), counts()})
        all.insert(all.end(), more.begin(), more.end());
    return all;
}

// A session in this situation.
inline Library session_in(const Situation& situation) {
    Random random(0);
    Library library(random, dimacs(situation.formula));
    library.open();
    for (int decision : situation.decisions) {
        uint64_t answer = library.take({Call::DECIDE, literal_number(decision)});
        expect(tariff_kind(answer) != TARIFF_REFUSED, "a choice of the worked calls is refused");
    }
    return library;
}

// What is lent for a worked value; more lines stand behind the list.
struct Posed {
    Worked worked;
    Lending lent{};
    uint64_t refusal = 0;  // the number by which the examination refuses; 0 where it does not
};

inline std::string name_of(const Posed& posed) { return posed.worked.name; }

inline Posed pose(const Worked& worked) {
    Library library = session_in(worked.situation);
    const Numbers &book = library.lent_book().numbers, &session = library.lent_session().numbers;
    Loan<int32_t> rates{joined({worked.rates, times(2, cents(1, 3))}), worked.rates.size()};
    return {worked, {{book, book.size()}, {session, library.required_length()}, worked.base, rates, {-1, 1234567, -1}}};
}

// The same with a book or a session at fault, the book first.
inline Posed pose_damaged(Worked worked, size_t book, size_t session) {
    worked.answer = c_refusal(book == 0 ? 12 : 11);
    Posed posed = pose(worked);
    posed.refusal = tariff_number(worked.answer);
    if (book != 0) posed.lent.book.length = book;
    posed.lent.session.length -= session;
    return posed;
}

// The same in more numbers than any book and session needs.
inline Posed pose_long(const Worked& worked) {
    Posed posed = pose(worked);
    for (auto [part, most] : {std::pair{&posed.lent.book, TARIFF_BOOK}, std::pair{&posed.lent.session, TARIFF_SESSION}}) {
        part->memory.resize(static_cast<size_t>(most) + 1, 5);
        part->length = part->memory.size();
    }
    return posed;
}

inline std::vector<Posed> posed_values() {
    std::vector<Posed> list;
    for (const Worked& worked : worked_values()) list.push_back(pose(worked));
    list.push_back(pose_long(page_values().front()));
    for (const Situation& situation : {positive(), conflicting()})
        for (int64_t base : {0, -1})
            for (size_t cut : {0, 1})
                for (size_t book : {size_t{0}, size_t{3}})
                    if (book + cut != 0) list.push_back(pose_damaged({"at fault", situation, base, cents(1, 1), 0}, book, cut));
    return list;
}

// The worked value is due, and what the call answers and writes.
inline Due compare_worked(const Posed& posed, const Ways& ways) {
    Due due = compare_price(posed.lent, posed.refusal, ways);
    compare_number(due.answer, posed.worked.answer, "worked answer with list numbers", posed.lent.rates.length);
    if (!due.refused()) compare_amount(due.amount, posed.worked.amount, "worked amount");
    return due;
}
