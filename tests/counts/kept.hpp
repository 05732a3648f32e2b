// What must hold of a call whatever the engine, by the text and the numbers of a session before and after it: no second run is needed.
#pragma once
#include <algorithm>
#include <cstddef>
#include <cstdint>
#include <tariff.h>

#include "judge.hpp"

// The decisions in force, oldest first: trail literals whose level is not that of the place before.
inline Numbers decisions_of(const Numbers& session, size_t variables) {
    const uint32_t *trail = session.data() + HEADER, *levels = trail + variables;
    Numbers decisions;
    for (uint32_t i = 0, before = 0; i < session[TRAIL_LENGTH]; before = levels[i++])
        if (levels[i] != before) decisions.push_back(trail[i]);
    return decisions;
}

// The fixed decisions stay, and no fewer are fixed than before, nor more than are in force.
inline void check_fixed(const Numbers& before, const Numbers& after, size_t variables) {
    Numbers then = decisions_of(before, variables), now = decisions_of(after, variables);
    size_t fixed = std::min<size_t>(before[FIXED], then.size());
    expect(now.size() >= fixed && std::equal(now.begin(), now.begin() + static_cast<std::ptrdiff_t>(fixed), then.begin()),
           "a fixed choice is taken back");
    expect(after[FIXED] >= before[FIXED], "fewer choices are fixed than before");
    expect(after[FIXED] <= now.size(), "more choices are fixed than are in force");
}

// What a backtrack or a fixing answers, by the header.
inline uint64_t header_answer(const Call& call, const Numbers& session) {
    uint64_t number = call.number, fixed = session[FIXED], level = session[DECISIONS];
    if (call.kind == Call::BACKTRACK && (number == 0 || number + fixed > level)) return c_refusal(16);
    if (call.kind == Call::BACKTRACK) return session[BACKTRACKS] == MAX_BACKTRACKS ? c_refusal(17) : 0;
    if (session[CONFLICT] != 0) return c_refusal(14);
    return number < fixed || number > level ? c_refusal(22) : 0;
}

// A refusal changes nothing, an accepted fixing just the number of fixed decisions, an accepted call of another kind not this one.
inline void check_kept(const Call& call, uint64_t answer, const Numbers& before, const Numbers& after, size_t variables) {
    check_fixed(before, after, variables);
    if (call.kind != Call::DECIDE) compare_number(answer, header_answer(call, before), "answer by the header to", call.number);
    if (tariff_kind(answer) == TARIFF_REFUSED) return expect(after == before, "a refused call changes a number");
    if (call.kind != Call::FIX) return expect(after[FIXED] == before[FIXED], "a choice or a take-back changes how many are fixed");
    Numbers fixed = before;
    fixed[FIXED] = call.number;
    expect(after == fixed, "a fixing does not just fix so many");
}
