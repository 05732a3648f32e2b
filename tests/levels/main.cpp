// By the library, the level of a settled feature is the least number of oldest choices in force whose unit closure, as CaDiCaL fixes it of the rules
// as they are written, holds it. In contradiction that is so below the last level; at it, what is settled has to follow from the rules that it meets, and
// the rule named has to be false. Wrong levels must be noticed.
#include <chrono>
#include <cstdint>
#include <cstdlib>
#include <iostream>
#include <stdexcept>
#include <string>
#include <vector>

#include "../support/bench.hpp"
#include "../support/cases.hpp"
#include "walk.hpp"

namespace {

constexpr int CASES = 2000;
constexpr int SELF_CHECKS = 120;
constexpr int ENOUGH = 5;

const Cases cases("levels", 70050000);

bool is_open(uint64_t answer) { return tariff_state(answer) == TARIFF_IS_OPEN; }

uint64_t right(const State&, int, uint64_t answer) { return answer; }

// The choices in force, whatever the level.
uint64_t level_now(const State& state, int, uint64_t answer) { return is_open(answer) ? answer : 4 * state.decisions.size() + tariff_state(answer); }

uint64_t level_above(const State&, int, uint64_t answer) { return is_open(answer) ? answer : answer + 4; }

uint64_t level_below(const State&, int, uint64_t answer) { return tariff_level(answer) == 0 ? answer : answer - 4; }

// The last choice takes in what the one before it settled.
uint64_t last_two_as_one(const State& state, int variable, uint64_t answer) {
    return tariff_level(answer) + 1 == state.decisions.size() ? level_above(state, variable, answer) : answer;
}

uint64_t level_left_out(const State&, int, uint64_t answer) { return tariff_state(answer); }

uint64_t left_out_in_conflict(const State& state, int variable, uint64_t answer) {
    return state.conflict() ? level_left_out(state, variable, answer) : answer;
}

// What the contradicted choice settled.
uint64_t open_in_conflict(const State& state, int, uint64_t answer) {
    return state.conflict() && tariff_level(answer) == state.decisions.size() ? TARIFF_IS_OPEN : answer;
}

// Of what the contradicted choice settled the choice alone, and of a contradicted opening nothing.
uint64_t choice_alone_in_conflict(const State& state, int variable, uint64_t answer) {
    bool last = !state.decisions.empty() && std::abs(state.decisions.back()) == variable;
    return last ? answer : open_in_conflict(state, variable, answer);
}

uint64_t sign_turned(const State&, int, uint64_t answer) { return is_open(answer) ? answer : answer ^ 3; }

uint64_t level_of_open(const State& state, int, uint64_t answer) { return is_open(answer) ? 4 * state.decisions.size() : answer; }

struct Wrong {
    std::string name;
    View view;
};

const std::vector<Wrong>& wrong_list() {
    static const std::vector<Wrong> list = {
        {"the choices in force", level_now},
        {"one level more", level_above},
        {"one level less", level_below},
        {"the last two levels as one", last_two_as_one},
        {"no level", level_left_out},
        {"no level in contradiction", left_out_in_conflict},
        {"open in contradiction at the last choice", open_in_conflict},
        {"open in contradiction what the last choice forced", choice_alone_in_conflict},
        {"wanted for barred", sign_turned},
        {"a level of what is open", level_of_open},
    };
    return list;
}

// A case as Cases runs it.
auto seen_by(const View& view, Tally& tally) {
    return [view, &tally](uint64_t seed, const shapes::Shape& shape) { Walk(seed, shape, view, tally).run(); };
}

// Every wrong view has to differ in some of the first cases; it is tried until it did in enough.
void check_wrong() {
    std::cout << "levels: wrong levels noticed, in so many of the cases tried:";
    for (const Wrong& wrong : wrong_list()) {
        Tally tally;
        auto [noticed, tried] = cases.trial(SELF_CHECKS, ENOUGH, seen_by(wrong.view, tally));
        if (noticed < ENOUGH) throw std::runtime_error("not noticed: " + wrong.name);
        std::cout << (&wrong == &wrong_list().front() ? " " : ", ") << wrong.name << " " << noticed << " of " << tried;
    }
    std::cout << std::endl;
}

int test() {
    auto start = std::chrono::steady_clock::now();
    check_wrong();
    Tally tally;
    int failures = cases.failures(CASES, seen_by(right, tally));
    tally.print(std::chrono::duration<double>(std::chrono::steady_clock::now() - start).count());
    return failures == 0 ? 0 : 1;
}

}  // namespace

int main() { return guarded(test); }
