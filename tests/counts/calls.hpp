// Compares every number after every call by the library with a run, and the answers.
#pragma once
#include <cstddef>
#include <cstdint>
#include <functional>
#include <string>
#include <vector>

#include "always_met.hpp"
#include "judge.hpp"
#include "kept.hpp"
#include "lent.hpp"
#include "work.hpp"

// How a session is looked at: a wrong view changes what is seen.
using View = std::function<void(Seen&)>;

inline void compare_seen(const Run& run, const Library& library, const View& view, Work& work) {
    Seen seen = library.look();
    work.calls++;
    work.numbers += seen.numbers.size();
    view(seen);
    size_t needed = compare_numbers(seen.numbers, session_parts(run), library.lent_session().before);
    compare_number(library.required_length(), needed, "required length", 0);
    compare_number(seen.counts.size(), run.clauses.size(), "number of counts", 0);
    const std::string name = "checks of rule";
    for (size_t i = 0; i < seen.counts.size(); i++) compare_number(seen.counts[i], run.clauses[i].checks, name, i + 1);
    compare_number(seen.total, run.total(), "total of checks", 0);
    const uint64_t figures[TARIFF_FIGURES] = {run.starts.size(), run.backtracks, run.trail.size(), run.conflict};
    for (size_t i = 0; i < TARIFF_FIGURES; i++) compare_number(seen.figures[i], figures[i], "figure", i);
    compare_number(seen.fixed, run.fixed, "number of fixed choices", 0);
}

// Every session in which a clause that is always met has a watch, a pointer, a link or a place in a list, or is named, fails the examination.
inline void compare_always_met(const Run& run, const Library& library) {
    const Numbers& session = library.lent_session().numbers;
    size_t i = 0;
    for (const Numbers& damaged : always_met_damage(run, session))
        compare_number(library.examine(damaged), c_refusal(12), "answer to a rule that is always met, damage", i++);
    Numbers counted = session;
    for (size_t clause = 0; clause < run.clauses.size(); clause++)
        if (run.formula.clauses[clause].empty()) counted[place_of(run, "checks", clause)] = 0xffffffffu - static_cast<uint32_t>(clause);
    compare_number(library.examine(counted), TARIFF_FIGURES, "answer to counts of rules that are always met", 0);
}

// An opening, whatever the session was before.
inline void compare_opening(Run& run, Library& library, const View& view, Work& work, Looks& looks) {
    compare_number(library.open(), c_answer(run.open()), "answer to the opening", 0);
    compare_seen(run, library, view, work);
    looks.open();
    looks.look(run, library, Looks::OFTEN);
}

// One call: the answer, what is seen and looked up, and what must stay by the text alone.
inline void compare_call(Run& run, Library& library, const Call& call, const View& view, Work& work, Looks& looks) {
    work.fixings.add(run, call);
    Numbers before = library.lent_session().numbers;
    uint64_t answer = library.take(call);
    compare_number(answer, answer_call(run, call), "answer to number", call.number);
    compare_seen(run, library, view, work);
    check_kept(call, answer, before, library.lent_session().numbers, static_cast<size_t>(run.formula.variables));
    looks.take(call, answer);
    looks.look(run, library, Looks::SELDOM);
}

// The opening and each call by the library, beside the run; at the end the book, damaged sessions, and another opening. Sessions that are
// lent with other numbers are made of the first one in a conflict, or else of the last one.
inline void compare_calls(Random& random, Run& run, Library& library, const std::vector<Call>& calls, const View& view, Work& work) {
    size_t i = 0;
    bool lent = false;
    Looks looks(random, library, work.lookups);
    try {
        compare_opening(run, library, view, work, looks);
        for (const Call& call : calls) {
            i++;
            compare_call(run, library, call, view, work, looks);
            if (lent || run.conflict == 0) continue;
            compare_lent(random, run, library, looks, work);
            lent = true;
        }
        if (!lent) compare_lent(random, run, library, looks, work);
        looks.look(run, library, Looks::OFTEN);
        compare_numbers(library.lent_book().numbers, book_parts(run.formula), library.lent_book().before);
        compare_always_met(run, library);
        compare_opening(run, library, view, work, looks);
    } catch (const Disagreement& disagreement) {
        throw Disagreement("call " + std::to_string(i) + " by the library: " + disagreement.what());
    }
}
