// Wrong quotes and engines, each of which its own part of the comparison must notice, and right ones, which none may.
#pragma once
#include <cstdint>
#include <filesystem>
#include <functional>
#include <iostream>
#include <stdexcept>
#include <string>
#include <vector>

#include "../support/cases.hpp"
#include "compare.hpp"
#include "methods.hpp"
#include "part_checks.hpp"
#include "worked.hpp"

constexpr uint64_t FIRST_SEED = 70110000;
constexpr int SELF_CHECKS = 600;
constexpr int ENOUGH = 5;

inline const Cases quote_cases("quote", FIRST_SEED);

inline void say(const std::string& name, int noticed, int tried, int due, const char* before) {
    std::string result = name + " " + std::to_string(noticed) + " of " + std::to_string(tried);
    if (noticed != due) throw std::runtime_error("noticed: " + result + ", must be " + std::to_string(due));
    std::cout << before << result;
}

// A wrong one is tried until enough cases noticed it by its part; of a right one none does, by any part.
inline void check_methods(const methods::List& list, int due) {
    const char* before = " ";
    for (const methods::Named& named : list) {
        auto [noticed, tried] = quote_cases.trial(SELF_CHECKS, ENOUGH, [&](uint64_t seed, const shapes::Shape& shape) {
            Random random(seed);
            Generated made = generate(random, shape);
            Tally tally;
            expect(!disagrees(named.part, [&] { compare_drawn(random, made, named.quote, tally); }), "noticed");
        });
        say(named.name, noticed, tried, due, before);
        before = ", ";
    }
    std::cout << std::endl;
}

inline void check_many() {
    std::cout << "quote: noticed with many lines:";
    const char* before = " ";
    const std::vector<Quoting> list = many_quotings({1000000, 1000001, (1 << 20) + 1, (1 << 21) + 1});
    for (const methods::Named& named : methods::wrong_counts()) {
        if (!disagrees(named.part, [&] { compare_many(list, named.quote); })) throw std::runtime_error("not noticed: " + named.name);
        std::cout << before << named.name;
        before = ", ";
    }
    std::cout << std::endl;
}

// The second run, with a fixing that costs a check.
struct CostlyFixing : RunEngine {
    uint64_t fixings = 0;

    uint64_t take(const Call& call) {
        if (call.kind == Call::FIX) fixings++;
        return RunEngine::take(call);
    }
    uint64_t total() const { return RunEngine::total() + fixings; }
};

// A clause of many literals and decisions against it, then so many take-backs, on the second run with a fault in the engine's place, fixings between.
template <class Engine>
void compare_run(uint64_t seed, Fault fault, int backs) {
    Random random(seed);
    int length = random.between(8, 255);
    Formula formula = shapes::by_lengths(random, length, 1, {length}, 50);
    Generated made{formula, formula, dimacs(formula), against(formula.clauses.front()), 50};
    for (; backs > 0; backs--) made.script += "b 1\n";
    Library library(random, made.text);
    Due quoted = compare_plain(random, made, library.lent_book().numbers);
    Engine engine{Run(made.formula, fault)};
    follow_script(engine, made.script, quoted, [&](Engine& now) { fix_some(random, now); });
}

struct WrongRun {
    std::string name, part;
    std::function<void(uint64_t)> compare;
    int due;
};

// Wrong engines, which the claim is not true of, and a right one.
inline void check_runs() {
    const std::vector<WrongRun> runs{
        {"scans from position 0", "checks over the ceiling behind", [](uint64_t seed) { compare_run<RunEngine>(seed, Fault::SCANS_FROM_ZERO, 0); }, ENOUGH},
        {"take-backs behind them", "checks over the ceiling of", [](uint64_t seed) { compare_run<RunEngine>(seed, Fault::SCANS_FROM_ZERO, 999); }, ENOUGH},
        {"fixings that cost", "checks behind a fixing", [](uint64_t seed) { compare_run<CostlyFixing>(seed, Fault::NONE, 0); }, ENOUGH},
        {"the right run", "", [](uint64_t seed) { compare_run<RunEngine>(seed, Fault::NONE, 9); }, 0},
    };
    const char* before = " ";
    std::cout << "quote: engines that cost more, noticed in so many of the scripts tried:";
    for (const WrongRun& wrong : runs) {
        auto [noticed, tried] = quote_cases.trial(SELF_CHECKS, ENOUGH, [&](uint64_t seed, const shapes::Shape&) {
            expect(!disagrees(wrong.part, [&] { wrong.compare(seed); }), "noticed");
        });
        say(wrong.name, noticed, tried, wrong.due, before);
        before = ", ";
    }
    std::cout << std::endl;
}

inline void check_wrong(const std::filesystem::path& folder) {
    std::cout << "quote: noticed, in so many of the cases tried:";
    check_methods(methods::wrong_list(), ENOUGH);
    std::cout << "quote: right ones:";
    check_methods(methods::right_list(), 0);
    check_many();
    check_runs();
    parts::check_all(folder);
}
