// Damage to a session: a clause that is always met gets what it must not have.
#pragma once
#include <algorithm>
#include <cstddef>
#include <cstdint>
#include <string>
#include <vector>

#include "numbers.hpp"

// Place i of a part among the numbers of a session.
inline size_t place_of(const Run& run, const std::string& name, size_t i) {
    size_t at = 0;
    for (const Part& part : session_parts(run)) {
        if (part.name == name) return at + i;
        at += part.numbers.size();
    }
    return at;
}

// The place that ends the first watch list which has a clause; where none has, the head of the first list.
inline size_t last_slot(const Run& run, const Numbers& session) {
    size_t heads = place_of(run, "heads", 0), links = place_of(run, "links", 0), slot = heads;
    while (slot < links && session[slot] == 0) slot++;
    if (slot == links) return heads;
    while (session[slot] != 0) slot = links + session[slot] - 1;
    return slot;
}

// Copies of a session, each with one damage to the last clause without literals; none where there is no such clause.
inline std::vector<Numbers> always_met_damage(const Run& run, const Numbers& session) {
    auto found = std::find_if(run.formula.clauses.rbegin(), run.formula.clauses.rend(), [](const Clause& clause) { return clause.empty(); });
    if (found == run.formula.clauses.rend()) return {};
    size_t clause = static_cast<size_t>(run.formula.clauses.rend() - found) - 1;
    uint32_t node = 2 * static_cast<uint32_t>(clause) + 1;
    std::vector<Numbers> damaged;
    auto change = [&](const std::string& part, size_t i, uint32_t number) {
        damaged.push_back(session);
        damaged.back()[place_of(run, part, i)] = number;
    };
    change("header", CONFLICT, static_cast<uint32_t>(clause) + 1);
    change("watches", 2 * clause, 1);
    change("watches", 2 * clause + 1, 1);
    change("pointers", clause, 1);
    change("links", 2 * clause, node + 1);
    size_t head = place_of(run, "heads", clause % (2 * static_cast<size_t>(run.formula.variables)));
    change("links", 2 * clause, session[head]);
    damaged.back()[head] = node;
    damaged.push_back(session);
    damaged.back()[last_slot(run, session)] = node;
    return damaged;
}
