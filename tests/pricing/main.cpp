// By the library, the premium of a session is K1's, and what is said of a table of age bands and the premium for an age are K9's: answer, what is written, and
// all lent memory. Wrong ways must be noticed, on random calls and on worked ones, and right ones must not.
#include <cstdint>
#include <functional>
#include <iostream>
#include <stdexcept>
#include <string>
#include <vector>

#include "../support/bench.hpp"
#include "../support/cases.hpp"
#include "../support/repeats.hpp"
#include "aged_draw.hpp"
#include "aged_methods.hpp"
#include "aged_tally.hpp"
#include "aged_worked.hpp"
#include "methods.hpp"
#include "relations.hpp"
#include "table_methods.hpp"
#include "tally.hpp"
#include "trial.hpp"

namespace {

constexpr int CASES = 1200;
constexpr int AGED = 600;
constexpr int RELATED = 100;
constexpr int SELF_CHECKS = 300;
constexpr int RIGHT_CHECKS = 60;
constexpr int ENOUGH = 3;

const Cases cases("pricing", 70010000);

// A decision on every variable, in any order; one that comes to a conflict is taken back, or now and then all stays so.
void assign_all(Random& random, Library& library) {
    bool stays = random.chance(15);
    for (int variable : shapes::permutation(random, static_cast<int>(library.variables()))) {
        uint64_t answer = library.take({Call::DECIDE, literal_number(random.sign(variable))});
        if (tariff_kind(answer) == TARIFF_CONFLICT && !stays) library.take({Call::BACKTRACK, 1});
    }
}

// Now and then the motor tariff, or all variables and few clauses; else a book of the shape.
std::string any_book(Random& random, const shapes::Shape& shape, const std::string& motor) {
    int kind = random.below(100);
    if (kind < 8) return motor;
    if (kind < 14) return dimacs(shapes::by_lengths(random, MAX_VARIABLES, random.below(20), {2, 3, 30}, 50));
    return dimacs(repeats::any(random, shape.make(random)));
}

// Calls on the states that a random session comes to.
void run_case(uint64_t seed, const shapes::Shape& shape, const std::string& motor, const std::function<void(Random&, const Library&)>& make_call) {
    Random random(seed);
    Library library(random, any_book(random, shape, motor));
    library.open();
    for (int calls = 12; calls > 0; calls--) {
        if (random.chance(40)) wander(random, library, random.between(1, random.chance(95) ? 20 : 200));
        if (random.chance(4)) assign_all(random, library);
        if (random.chance(40) && library.conflict() != 0) library.take({Call::BACKTRACK, 1});
        make_call(random, library);
    }
}

std::string kind_of(uint64_t answer) {
    if (answer == FALSE_TABLE) return "false";
    return tariff_kind(answer) == TARIFF_REFUSED ? "refused by " + std::to_string(tariff_number(answer)) : "accepted";
}

// The answer of a row changed, and its amount where it has one.
template <class Row>
std::vector<WrongRow<Row>> changed_amounts(const Row& right) {
    Row answer = right, amount = right;
    answer.worked.answer++;
    amount.worked.amount ^= 1;
    if (tariff_kind(right.worked.answer) == TARIFF_REFUSED) return {{"worked answer", answer}};
    return {{"worked answer", answer}, {"worked amount", amount}};
}

// A good table that is called false, another number, and another age.
std::vector<WrongRow<WorkedTable>> changed_tables(const WorkedTable& right) {
    WorkedTable other = right, number = right, age = right;
    other.checked = {!right.checked.is_false};
    number.checked.number ^= 25 ^ 26;
    age.checked.age++;
    if (right.checked.number == 0) return {{"worked answer", other}};
    return {{"worked answer", other}, {"worked answer", number}, {"worked age", age}};
}

// Compared by the library, with rows that are wrong, and in wrong ways and right ones.
template <class Way, class Row, class Changed>
void check(const Calls<Way, Row>& calls, const Way& library, Changed changed, const NamedList<Way>& wrong, const NamedList<Way>& right) {
    calls.check_rows(library, changed);
    std::cout << "pricing: noticed, in so many of the cases tried and of the " << calls.name << ":";
    calls.check_ways(cases, wrong, SELF_CHECKS, ENOUGH, ENOUGH);
    std::cout << "pricing: right ones:";
    calls.check_ways(cases, right, RIGHT_CHECKS, ENOUGH, 0);
}

// By the library on random cases and worked rows.
template <class Way, class Row>
bool fails(const Calls<Way, Row>& calls, const Way& library, int count) {
    int failed = calls.failures(library);
    return failed + cases.failures(count, [&](uint64_t seed, const shapes::Shape& shape) { calls.compare_case(seed, shape, library); }) > 0;
}

// K1: premiums.
int test_prices(const std::string& motor) {
    Tally tally;
    auto compare_case = [&](uint64_t seed, const shapes::Shape& shape, const Ways& ways) {
        run_case(seed, shape, motor, [&](Random& random, const Library& library) {
            Draw draw(random, library);
            tally.add(draw.lent, compare_price(draw.lent, draw.refusal, ways));
        });
    };
    auto compare_row = [](const Posed& posed, const Ways& ways) { return kind_of(compare_worked(posed, ways).answer); };
    const Calls<Ways, Posed> calls{"worked calls", posed_values(), compare_case, compare_row};
    if (fails(calls, Ways{}, CASES)) return 1;
    tally.print();
    check(calls, Ways{}, changed_amounts<Posed>, methods::wrong_list(), methods::right_list());
    return 0;
}

// K9: tables.
int test_tables() {
    TableTally tally;
    auto compare_case = [&](uint64_t seed, const shapes::Shape&, const Checker& check) {
        Random random(seed);
        for (int tables = 12; tables > 0; tables--) {
            const Checking lent = Tables(random).any_checking();
            tally.add(lent, compare_check(lent, check));
        }
    };
    auto compare_row = [](const WorkedTable& worked, const Checker& check) { return kind_of(answer_of(compare_table(worked, check))); };
    const Calls<Checker, WorkedTable> calls{"worked tables", worked_tables(), compare_case, compare_row};
    const Checker library = check_by_library;
    if (fails(calls, library, CASES)) return 1;
    tally.print();
    check(calls, library, changed_tables, methods::wrong_checkers(), methods::right_checkers());
    return 0;
}

// K9: premiums for an age.
int test_ages(const std::string& motor) {
    AgedTally tally;
    auto compare_case = [&](uint64_t seed, const shapes::Shape& shape, const AgedMethod& price) {
        run_case(seed, shape, motor, [&](Random& random, const Library& library) {
            AgedDraw draw(random, library);
            const AgedLending lent = draw.for_age();
            tally.add(lent, compare_for_age(lent, draw.refusal, price));
        });
    };
    auto compare_row = [](const AgedPosed& posed, const AgedMethod& price) { return kind_of(compare_worked(posed, price).answer); };
    const Calls<AgedMethod, AgedPosed> calls{"worked calls for an age", posed_ages(), compare_case, compare_row};
    const AgedMethod library = for_age_by_library;
    if (fails(calls, library, AGED)) return 1;
    check_factors(library);
    tally.print();
    check(calls, library, changed_amounts<AgedPosed>, methods::wrong_aged(), methods::right_aged());
    return 0;
}

// K9: several calls together.
int test_relations(const std::string& motor) {
    auto compare_case = [&](uint64_t seed, const shapes::Shape& shape, const AgedMethod& price) {
        run_case(seed, shape, motor, [&](Random& random, const Library& library) { compare_relations(random, AgedDraw(random, library).for_age(), price); });
    };
    auto compare_row = [](const AgedPosed& posed, const AgedMethod& price) {
        compare_all_relations(posed, price);
        return std::string("compared");
    };
    const Calls<AgedMethod, AgedPosed> calls{"calls at all ages", related_calls(), compare_case, compare_row};
    const AgedMethod library = for_age_by_library;
    if (fails(calls, library, RELATED)) return 1;
    std::cout << "pricing: noticed, in so many of the cases tried and of these:";
    calls.check_ways(cases, methods::wrong_relations(), SELF_CHECKS, ENOUGH, ENOUGH);
    return 0;
}

int test(const std::string& motor) {
    check_roundings();
    check_scaling();
    int failed = test_prices(motor);
    failed += test_tables();
    failed += test_ages(motor);
    failed += test_relations(motor);
    return failed == 0 ? 0 : 1;
}

}  // namespace

int main(int argc, char** argv) {
    return guarded([&] {
        if (argc != 2) throw std::runtime_error("usage: pricing TARIFF");
        return test(read_file(argv[1]));
    });
}
