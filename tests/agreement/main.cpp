// By the library, two sessions on one book with the same choices, in other orders and after other take-backs, look every feature up alike but for the
// level, or the choices contradict in both. Wrong lookups and engines must be noticed, and others with the same outcome must not.
#include <chrono>
#include <cstddef>
#include <cstdint>
#include <cstdlib>
#include <iostream>
#include <list>
#include <stdexcept>
#include <string>
#include <vector>

#include "../support/bench.hpp"
#include "../support/cases.hpp"
#include "pair.hpp"

namespace {

constexpr int CASES = 2000;
constexpr int SELF_CHECKS = 120;
constexpr int ENOUGH = 5;

const Cases cases("agreement", 70140000);

// A conflict clause stands in no watch list from then on.
uint64_t lose_conflict(Run& run, const Call&, uint64_t answer) {
    if (run.conflict != 0)
        for (std::list<size_t>& list : run.lists) list.remove(run.conflict - 1);
    return answer;
}

// A backtrack puts watches, pointers and counts back as the opening left them, whatever the decisions that stay make false.
uint64_t reset_watches(Run& run, const Call& call, uint64_t answer) {
    if (call.kind != Call::BACKTRACK) return answer;
    Run opened(run.formula);
    opened.open();
    run.clauses = opened.clauses;
    run.lists = opened.lists;
    return answer;
}

// A decision is taken although it comes to a conflict.
uint64_t overlook_conflict(Run& run, const Call&, uint64_t answer) {
    if (run.conflict == 0) return answer;
    run.conflict = 0;
    return 0;
}

// A conflict is told, and the session does not hold it.
uint64_t forget_conflict(Run& run, const Call&, uint64_t answer) {
    run.conflict = 0;
    return answer;
}

// A decision that implies nothing is told as a conflict.
uint64_t invent_conflict(Run&, const Call& call, uint64_t answer) {
    return call.kind == Call::DECIDE && answer == 0 ? uint64_t{TARIFF_CONFLICT} << 32 | 1 : answer;
}

bool at_last(const Agent& agent, uint64_t answer) { return is_settled(answer) && agent.level() > 0 && tariff_level(answer) == agent.decisions.size(); }

uint64_t last_forced_open(const Agent& agent, uint32_t number, uint64_t answer) {
    bool forced = at_last(agent, answer) && static_cast<uint32_t>(std::abs(agent.decisions.back())) != number;
    return forced ? TARIFF_IS_OPEN : answer;
}

uint64_t last_turned(const Agent& agent, uint32_t, uint64_t answer) { return at_last(agent, answer) ? answer ^ 3 : answer; }

uint64_t opening_open(const Agent&, uint32_t, uint64_t answer) { return is_settled(answer) && tariff_level(answer) == 0 ? TARIFF_IS_OPEN : answer; }

uint64_t open_wanted(const Agent&, uint32_t, uint64_t answer) { return answer == TARIFF_IS_OPEN ? TARIFF_IS_WANTED : answer; }

uint64_t beyond_open(const Agent& agent, uint32_t number, uint64_t answer) {
    return number == static_cast<uint32_t>(agent.variables) + 1 ? TARIFF_IS_OPEN : answer;
}

uint64_t refused_by_12(const Agent&, uint32_t, uint64_t answer) { return tariff_kind(answer) == TARIFF_REFUSED ? c_refusal(12) : answer; }

uint64_t no_level(const Agent&, uint32_t, uint64_t answer) { return unlevelled(answer); }

// Both sessions by one engine.
Sides both(Fault fault, Damage damage = no_damage) { return {by_run(fault, damage), by_run(fault, damage)}; }
Sides both_seen(const Agent::View& view) { return {by_library, by_library, view, view}; }

// The second session, beside one by the library.
Sides beside(Fault fault, Damage damage = no_damage) { return {by_library, by_run(fault, damage)}; }
Sides seen(const Agent::View& view) { return {by_library, by_library, plain, view}; }

struct Other {
    std::string name;
    Sides sides;
    int noticed = ENOUGH;  // in so many of the first cases
};

// Wrong ones, and behind them those with the same outcome.
std::vector<Other> others() {
    return {
        {"unhandled literals kept over a take-back", both(Fault::KEEPS_UNHANDLED)},
        {"watches moved to literals that were false before", both(Fault::MOVES_TO_HANDLED)},
        {"contradicted rules lost", both(Fault::NONE, lose_conflict)},
        {"watches put back on take-back", both(Fault::NONE, reset_watches)},
        {"contradictions overlooked", beside(Fault::NONE, overlook_conflict)},
        {"contradictions told and not kept", both(Fault::NONE, forget_conflict)},
        {"contradictions where nothing is forced", beside(Fault::NONE, invent_conflict)},
        {"in both what the last choice forced as open", both_seen(last_forced_open)},
        {"what the last choice forced as open", seen(last_forced_open)},
        {"wanted for barred at the last choice", seen(last_turned)},
        {"what the opening forced as open", seen(opening_open)},
        {"open features as wanted", seen(open_wanted)},
        {"in both feature V + 1 as open", both_seen(beyond_open)},
        {"12 for 13", seen(refused_by_12)},
        {"the second run", beside(Fault::NONE), 0},
        {"scans from position 0", beside(Fault::SCANS_FROM_ZERO), 0},
        {"scans of rules whose other watch is true", beside(Fault::SCANS_SATISFIED), 0},
        {"pointers put back on take-back", beside(Fault::RESTORES_POINTERS), 0},
        {"watches moved to false unhandled literals", beside(Fault::MOVES_TO_UNHANDLED), 0},
        {"rules at the back of watch lists", beside(Fault::PUTS_BEHIND), 0},
        {"no levels", seen(no_level), 0},
    };
}

// A case as Cases runs it.
auto by(const Sides& sides, Tally& tally) {
    return [sides, &tally](uint64_t seed, const shapes::Shape& shape) { Pair(seed, shape, sides, tally).run(); };
}

// A wrong one is tried until enough cases noticed it; where the outcome is the same, none does.
void check_others() {
    std::cout << "agreement: noticed, in so many of the cases tried:";
    const char* before = " ";
    for (const Other& other : others()) {
        Tally tally;
        auto [noticed, tried] = cases.trial(SELF_CHECKS, ENOUGH, by(other.sides, tally));
        std::string result = other.name + " " + std::to_string(noticed) + " of " + std::to_string(tried);
        if (noticed != other.noticed) throw std::runtime_error("noticed: " + result + ", must be " + std::to_string(other.noticed));
        std::cout << before << result;
        before = ", ";
    }
    std::cout << std::endl;
}

int test() {
    auto start = std::chrono::steady_clock::now();
    check_others();
    Tally tally;
    if (cases.failures(CASES, by(Sides{}, tally)) > 0) return 1;
    tally.print(std::chrono::duration<double>(std::chrono::steady_clock::now() - start).count());
    return 0;
}

}  // namespace

int main() { return guarded(test); }
