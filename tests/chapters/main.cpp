// By the library, the totals of chapters are the sums of the counts of their rules, the answers are K6's, and all else that is lent stays.
// Wrong sums and answers must be noticed, and right ones that are made in other ways must not.
#include <algorithm>
#include <chrono>
#include <cstddef>
#include <cstdint>
#include <iostream>
#include <stdexcept>
#include <string>
#include <vector>

#include "../support/bench.hpp"
#include "../support/cases.hpp"
#include "../support/repeats.hpp"
#include "draw.hpp"
#include "methods.hpp"
#include "tally.hpp"

namespace {

constexpr int CASES = 6000;
constexpr int SELF_CHECKS = 120;
constexpr int ENOUGH = 5;

const Cases cases("chapters", 70060000);

// Calls on the states that a random session comes to.
void run_case(uint64_t seed, const shapes::Shape& shape, const Ways& ways, Tally& tally) {
    Random random(seed);
    Library library(random, dimacs(repeats::any(random, shape.make(random))));
    library.open();
    for (int calls = 12; calls > 0; calls--) {
        if (random.chance(30)) wander(random, library, random.between(1, 20));
        Draw draw(random, library);
        tally.add(draw.lent, compare_filing(draw.lent, draw.refusal, ways));
    }
}

// A case as Cases runs it.
auto by(const Ways& ways, Tally& tally) {
    return [ways, &tally](uint64_t seed, const shapes::Shape& shape) { run_case(seed, shape, ways, tally); };
}

// What is written of a book and these chapters behind some calls, with other counts lent where there are any.
Sums written(const Formula& formula, const std::vector<Call>& calls, const Numbers& chapters, const Numbers& counts) {
    Random random(0);
    Library library(random, dimacs(formula));
    library.open();
    for (const Call& call : calls) library.take(call);
    const Numbers &book = library.lent_book().numbers, &session = library.lent_session().numbers;
    Lending lent{{book, book.size()}, {session, session.size()}, {chapters, chapters.size()}, {Sums(CHAPTERS, 7), CHAPTERS}};
    for (size_t clause = 0; clause < counts.size(); clause++) lent.session.memory[lent.count_place(clause)] = counts[clause];
    if (by_library(lent) != FILED) throw Disagreement("a point of K6 is not answered by true");
    return lent.totals.memory;
}

// The points of K6: document 01's listing, whose rules cost 3, 0 and 1, in chapters 0, 31 and 0; three full counts in one chapter; no rule.
void check_points() {
    Formula listing{4, {{1, 2, 3}, {-3, 4}, {-4, -2, 1}}};
    std::vector<Call> calls{{Call::DECIDE, 3}, {Call::DECIDE, 5}, {Call::BACKTRACK, 1}, {Call::DECIDE, 7}};
    Sums zeros(CHAPTERS), four = zeros, full = zeros;
    four[0] = 4;
    full[9] = 12884901885;
    expect(written(listing, calls, {0, 31, 0}, {}) == four, "the listing's totals are others");
    expect(written(listing, {}, {9, 9, 9}, {~0u, ~0u, ~0u}) == full, "three full counts come to another total");
    expect(written({1, {}}, {}, {}, {}) == zeros, "a book of no rules has other totals than 0");
}

// A wrong one is tried until enough cases noticed it; of a right one none does.
void check_methods(const std::vector<methods::Named>& list, int due) {
    const char* before = " ";
    for (const methods::Named& named : list) {
        Tally tally;
        auto [noticed, tried] = cases.trial(SELF_CHECKS, ENOUGH, by(named.ways, tally));
        std::string result = named.name + " " + std::to_string(noticed) + " of " + std::to_string(tried);
        if (noticed != due) throw std::runtime_error("noticed: " + result + ", must be " + std::to_string(due));
        std::cout << before << result;
        before = ", ";
    }
    std::cout << std::endl;
}

// Whether the points are as K6 has them.
bool points_hold() {
    try {
        check_points();
        return true;
    } catch (const Disagreement& disagreement) {
        std::cout << "FAILED " << disagreement.what() << "\n";
        return false;
    }
}

int test() {
    auto start = std::chrono::steady_clock::now();
    if (!points_hold()) return 1;
    std::cout << "chapters: noticed, in so many of the cases tried:";
    check_methods(methods::wrong_list(), ENOUGH);
    std::cout << "chapters: right ones:";
    check_methods(methods::right_list(), 0);
    Tally tally;
    if (cases.failures(CASES, by(Ways{}, tally)) > 0) return 1;
    tally.print(std::chrono::duration<double>(std::chrono::steady_clock::now() - start).count());
    return 0;
}

}  // namespace

int main() { return guarded(test); }
