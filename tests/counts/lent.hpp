// Sessions that are lent with other numbers of fixed choices and of take-backs, beside a run that has them too.
#pragma once
#include <cstddef>
#include <cstdint>
#include <string>
#include <vector>

#include "../support/random.hpp"
#include "judge.hpp"
#include "work.hpp"

// Calls on either side of what the run refuses.
inline std::vector<Call> probes(Random& random, const Run& run) {
    uint32_t level = static_cast<uint32_t>(run.starts.size()), loose = level - run.fixed;
    uint32_t literal = static_cast<uint32_t>(random.between(2, 2 * run.formula.variables + 1));
    std::vector<Call> calls{
        {Call::DECIDE, literal},    {Call::BACKTRACK, loose}, {Call::BACKTRACK, loose + 1}, {Call::BACKTRACK, level}, {Call::BACKTRACK, 1},
        {Call::FIX, run.fixed - 1}, {Call::FIX, run.fixed},   {Call::FIX, level},           {Call::FIX, level + 1},
    };
    random.shuffle(calls);
    return calls;
}

// The same calls on both; where the examination fails each is refused by 12, and nothing changes.
inline void compare_lent(Run& run, Library& library, const std::vector<Call>& calls, Looks looks, Work& work) {
    library.lend(FIXED, run.fixed);
    library.lend(BACKTRACKS, static_cast<uint32_t>(run.backtracks));
    const Numbers before = library.lent_session().numbers;
    const bool passes = run.fixed_passes();
    std::string state = ", lent with " + std::to_string(run.fixed) + " fixed choices and " + std::to_string(run.backtracks) + " take-backs, call";
    for (size_t i = 0; i < calls.size(); i++) {
        work.fixings.add(run, calls[i]);
        uint64_t answer = library.take(calls[i]);
        compare_number(answer, passes ? answer_call(run, calls[i]) : c_refusal(12), "answer" + state, i + 1);
        looks.take(calls[i], answer);
    }
    compare_number(library.fixed(), passes ? run.fixed : c_refusal(12), "number of fixed choices" + state, calls.size());
    compare_numbers(library.lent_session().numbers, passes ? session_parts(run) : std::vector<Part>{}, before);
    looks.lend(passes);
    looks.look(run, library, Looks::OFTEN);
}

// Fixed choices up to those in force and over them; take-backs as they are, or as many as there can be, or one fewer.
inline void compare_lent(Random& random, const Run& run, const Library& library, const Looks& looks, Work& work) {
    uint32_t level = static_cast<uint32_t>(run.starts.size()), any = static_cast<uint32_t>(random.next());
    uint32_t below = static_cast<uint32_t>(random.below(static_cast<int>(level) + 1));
    for (uint32_t fixed : {below, level, level + 1, random.pick(std::vector<uint32_t>{level + 2, 0x80000000u, 0xffffffffu, any})}) {
        Run lent = run;
        Library copy = library;
        lent.fixed = fixed;
        lent.backtracks = random.pick(std::vector<uint64_t>{run.backtracks, MAX_BACKTRACKS - 1, MAX_BACKTRACKS});
        compare_lent(lent, copy, probes(random, lent), looks, work);
    }
}
