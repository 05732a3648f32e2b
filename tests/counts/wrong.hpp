// Wrong runs, wrong views of what the library left, and wrong readings of clauses that a comparison must notice.
#pragma once
#include <algorithm>
#include <cstddef>
#include <functional>
#include <string>
#include <utility>
#include <vector>

#include "calls.hpp"
#include "run.hpp"

// How the run reads a formula as it is written.
using Reader = std::function<Formula(const Formula&)>;

struct Wrong {
    std::string name;
    Fault fault = Fault::NONE;
    View view = [](Seen&) {};
    Reader reading = nullptr;               // none: the right one
    bool in_script = fault != Fault::NONE;  // whether a script can show it
    bool in_text = false;                   // whether the numbers and lookups before and after a call can show it, without another run
};

inline void drop_counts(Seen& seen) { std::fill(seen.counts.begin(), seen.counts.end(), 0u); }

inline void count_less(Seen& seen) {
    auto counted = std::find_if(seen.counts.begin(), seen.counts.end(), [](uint32_t count) { return count > 0; });
    if (counted != seen.counts.end()) --*counted;
}

inline void count_more(Seen& seen) {
    if (!seen.counts.empty()) ++seen.counts.back();
}

// The first two counts that differ; their sum stays.
inline void swap_counts(Seen& seen) {
    auto other = std::adjacent_find(seen.counts.begin(), seen.counts.end(), [](uint32_t one, uint32_t next) { return one != next; });
    if (other != seen.counts.end()) std::swap(*other, *(other + 1));
}

// As many as are in force.
inline void fix_all(Seen& seen) { seen.fixed = seen.figures[TARIFF_CHOICES]; }

// The last of all that were lent.
inline void change_number(Seen& seen) { seen.numbers.back() ^= 1; }

// A repeated literal wherever it stands.
inline Clause count_repeated(const Clause& clause) { return both_ways(clause) != 0 ? Clause{} : clause; }

inline Clause at_last_place(const Clause& clause) {
    Clause reversed = as_read(Clause(clause.rbegin(), clause.rend()));
    return Clause(reversed.rbegin(), reversed.rend());
}

inline Clause drop_repeated(const Clause& clause) {
    Clause kept = as_read(clause);
    return kept.size() < clause.size() ? Clause{} : kept;
}

inline Clause imply_one_way(const Clause& clause) { return both_ways(clause) != 0 ? Clause{both_ways(clause)} : as_read(clause); }

// The other literals of a clause with a variable both ways.
inline Clause drop_variable(const Clause& clause) {
    Clause kept;
    for (int literal : clause)
        if (!stands(clause, -literal)) kept.push_back(literal);
    return as_read(kept);
}

inline Reader by_clause(Clause (*read)(const Clause&)) {
    return [read](Formula formula) {
        for (Clause& clause : formula.clauses) clause = read(clause);
        return formula;
    };
}

// The clauses behind one with a variable both ways have other numbers.
inline Formula renumber(const Formula& written) {
    Formula formula{written.variables, {}};
    for (const Clause& clause : written.clauses)
        if (both_ways(clause) == 0) formula.clauses.push_back(as_read(clause));
    return formula;
}

inline Wrong wrong_reading(const std::string& name, Reader reading) {
    Wrong wrong{name};
    wrong.reading = std::move(reading);
    wrong.in_script = true;
    return wrong;
}

// No line of a script fixes, or looks a feature up.
inline Wrong wrong_call(const std::string& name, Fault fault, bool in_text = true) {
    Wrong wrong{name, fault};
    wrong.in_script = false;
    wrong.in_text = in_text;
    return wrong;
}

// Of counts, of the steps of document 01, and of reading.
inline std::vector<Wrong> wrong_steps() {
    return {
        {"no checks counted", Fault::NONE, drop_counts},
        {"one too few", Fault::NONE, count_less},
        {"one too many", Fault::NONE, count_more},
        {"two rules' counts swapped", Fault::NONE, swap_counts},
        {"one number changed", Fault::NONE, change_number},
        {"all choices told as fixed", Fault::NONE, fix_all},
        {"scans from position 0", Fault::SCANS_FROM_ZERO},
        {"scans rules whose other watch is true", Fault::SCANS_SATISFIED},
        {"puts pointers back on take-back", Fault::RESTORES_POINTERS},
        {"moves watches to false unhandled literals", Fault::MOVES_TO_UNHANDLED},
        {"moves watches to literals that were false before", Fault::MOVES_TO_HANDLED},
        {"keeps unhandled literals over a take-back", Fault::KEEPS_UNHANDLED},
        {"puts rules at the back of watch lists", Fault::PUTS_BEHIND},
        {"takes rules of no literals for contradictions", Fault::CONTRADICTS_EMPTY},
        wrong_reading("counts repeated literals as positions", by_clause(count_repeated)),
        wrong_reading("keeps repeated literals at their last place", by_clause(at_last_place)),
        wrong_reading("leaves rules with repeated literals out", by_clause(drop_repeated)),
        wrong_reading("watches rules with a feature both ways", by_clause(first_places)),
        wrong_reading("forces one literal of a feature both ways", by_clause(imply_one_way)),
        wrong_reading("takes just the feature both ways out", by_clause(drop_variable)),
        wrong_reading("gives rules with a feature both ways no number", renumber),
    };
}

// Of K7.
inline std::vector<Wrong> wrong_fixings() {
    return {
        wrong_call("takes fixed choices back", Fault::TAKES_FIXED),
        wrong_call("takes fixed choices back in contradiction", Fault::FREES_FIXED),
        wrong_call("takes no choice back next to a fixed one", Fault::STOPS_ABOVE_FIXED),
        wrong_call("says 17 for 16 at a fixed choice", Fault::COUNT_FIRST, false),
        wrong_call("fixes none after a take-back", Fault::DROPS_FIXED),
        wrong_call("keeps the fixed choices at an opening", Fault::OPENS_FIXED, false),
        wrong_call("fixes one more at a choice", Fault::FIXES_DECISIONS),
        wrong_call("fixes fewer than before", Fault::FIXED_FALLS),
        wrong_call("fixes more than are in force", Fault::FIXES_BEYOND),
        wrong_call("refuses to fix as many as before", Fault::REFUSES_SAME),
        wrong_call("fixes in contradiction", Fault::FIXES_IN_CONFLICT),
        wrong_call("says 22 for 14", Fault::RANGE_FIRST),
        wrong_call("fixes although it refuses", Fault::FIXES_REFUSED),
        wrong_call("counts a fixing as a take-back", Fault::COUNTS_FIXING),
        wrong_call("passes sessions with too many fixed choices", Fault::PASSES_BEYOND, false),
    };
}

// Of K5.
inline std::vector<Wrong> wrong_lookups() {
    return {
        wrong_call("tells the choices in force for each level", Fault::LEVEL_NOW),
        wrong_call("tells choices one level too low", Fault::LEVEL_BEFORE),
        wrong_call("tells forced features one level too high", Fault::LEVEL_BEHIND),
        wrong_call("counts levels from 0 at the first choice", Fault::LEVEL_BELOW),
        wrong_call("tells the place on the trail for the level", Fault::LEVEL_AS_PLACE),
        wrong_call("counts levels from the fixed choices on", Fault::LEVEL_PAST_FIXED),
        wrong_call("tells no level of forced features", Fault::LEVEL_OF_DECISIONS),
        wrong_call("tells of forced features the level of another in the rule", Fault::LEVEL_OF_FALSE),
        wrong_call("tells no level", Fault::LEVEL_LEFT_OUT),
        wrong_call("tells no level in contradiction", Fault::LEVEL_NO_CONFLICT),
        wrong_call("tells the level at which a feature was first settled", Fault::LEVEL_AT_FIRST),
        wrong_call("counts choices that were taken back", Fault::LEVEL_EVER),
        wrong_call("tells another level after a take-back", Fault::LEVEL_RESET),
        wrong_call("tells a level of open features", Fault::LEVEL_OF_OPEN),
        wrong_call("tells wanted for barred", Fault::SIGN_TURNED),
        wrong_call("tells the last choice as open in contradiction", Fault::TOP_OPEN),
        wrong_call("tells features over V as open", Fault::OPEN_BEYOND),
        wrong_call("tells feature 0 as open", Fault::OPEN_AT_ZERO),
        wrong_call("looks features up without their highest bit", Fault::WRAPS_NUMBERS),
    };
}

inline const std::vector<Wrong>& wrong_list() {
    static const std::vector<Wrong> list = [] {
        std::vector<Wrong> all = wrong_steps();
        for (const std::vector<Wrong>& more : {wrong_fixings(), wrong_lookups()}) all.insert(all.end(), more.begin(), more.end());
        return all;
    }();
    return list;
}
