// How often each answer that K7 gives or moves was asked for.
#pragma once
#include <cstddef>
#include <iostream>

#include "../support/library.hpp"
#include "run.hpp"

struct FixTally {
    long taken = 0, in_conflict = 0, below = 0, above = 0;  // fixings
    long reaching = 0, reaching_worn = 0, down_to = 0;      // backtracks that reach a fixed decision, and that end at one
    long stuck = 0, failing = 0;                            // calls in a conflict with all decisions fixed, and with more fixed than in force

    // A call, and the run before it.
    void add(const Run& run, const Call& call) {
        size_t level = run.starts.size();
        if (!run.fixed_passes())
            failing++;
        else if (run.conflict != 0 && level > 0 && run.fixed == level)
            stuck++;
        else if (call.kind == Call::FIX)
            ++(run.conflict != 0 ? in_conflict : call.number < run.fixed ? below : call.number > level ? above : taken);
        else if (call.kind == Call::BACKTRACK && run.fixed > 0 && call.number > 0 && call.number <= level)
            add_backtrack(call.number + run.fixed, level, run.backtracks == MAX_BACKTRACKS);
    }

    void print() const {
        std::cout << "counts: fixings: " << taken << " taken, refused by 14: " << in_conflict << ", by 22: " << below << " below and " << above
                  << " above; take-backs: " << down_to << " down to the fixed choices, " << reaching << " that reach one, and " << reaching_worn
                  << " after a million; " << stuck << " calls on stuck sessions, " << failing << " on sessions with too many fixed choices\n";
    }

private:
    void add_backtrack(size_t reach, size_t level, bool worn) {
        if (reach == level) down_to++;
        if (reach > level) ++(worn ? reaching_worn : reaching);
    }
};
