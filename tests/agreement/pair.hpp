// Two agents on one book: the first walks at random, and in the states that it comes to the second gets to hold the same decisions, but for those that are
// true already, in another order and after other decisions and backtracks. Then all their lookups are alike but for the levels; or the decisions contradict:
// in the first all of them, in the second all, or some of them already, or the opposite of one is true there.
#pragma once
#include <algorithm>
#include <cstddef>
#include <cstdint>
#include <iostream>
#include <iterator>
#include <stdexcept>
#include <string>
#include <tariff.h>
#include <utility>
#include <vector>

#include "../support/repeats.hpp"
#include "../support/shapes.hpp"
#include "agent.hpp"

inline uint64_t plain(const Agent&, uint32_t, uint64_t answer) { return answer; }

// How the sessions of the two agents are made and seen.
struct Sides {
    Maker first = by_library, second = by_library;
    Agent::View first_view = plain, second_view = plain;
};

// As K14 compares answers: of what is settled the state without the level, any other answer as it is.
inline uint64_t unlevelled(uint64_t answer) { return is_settled(answer) ? tariff_state(answer) : answer; }

struct Tally {
    long pairs = 0, reordered = 0, taken_back = 0, fixed = 0, lacking = 0;
    long openings = 0, conflicts = 0, earlier = 0, opposite = 0;  // contradicted: by no decision, by all, by some, or the opposite of one is true
    long lookups = 0, levels = 0;
    int highest = 0, most_backtracks = 0;

    // The second session has the same decisions, or some of them.
    void add(const Agent& first, const Agent& second, bool contradicted) {
        bool all = first.level() == second.level();
        pairs++;
        highest = std::max(highest, first.level());
        most_backtracks = std::max({most_backtracks, first.backtracks, second.backtracks});
        if (all && first.decisions != second.decisions) reordered++;
        if (first.backtracks > 0 && second.backtracks > 0) taken_back++;
        if (first.fixed != second.fixed) fixed++;
        if (!contradicted && !all) lacking++;
        if (contradicted) ++(!second.conflict ? opposite : !all ? earlier : first.level() > 0 ? conflicts : openings);
    }

    // Every kind has to occur.
    void print(double seconds) const {
        const std::vector<std::pair<std::string, long>> kinds{
            {"with the choices in another order", reordered},
            {"after take-backs in both", taken_back},
            {"with another number of choices fixed", fixed},
            {"with a choice of the one settled already in the other", lacking},
            {"contradictions at the opening", openings},
            {"of the same choices", conflicts},
            {"in the second of some of them", earlier},
            {"with the opposite of one settled in the second", opposite},
            {"lookups with other levels", levels},
        };
        std::cout << "agreement: " << pairs << " pairs of sessions, of up to " << highest << " choices and " << most_backtracks << " take-backs, and "
                  << lookups << " lookups compared:";
        for (const auto& [name, count] : kinds) {
            if (count == 0) throw std::runtime_error("none " + name);
            std::cout << (&name == &kinds.front().first ? " " : ", ") << name << " " << count;
        }
        std::cout << "; " << static_cast<int>(seconds + 0.5) << " s\n";
    }
};

class Pair {
public:
    Pair(uint64_t seed, const shapes::Shape& shape, const Sides& sides, Tally& tally)
        : random(seed), written(repeats::any(random, shape.make(random))),
          first{sides.first(random, written), sides.first_view, written.variables},
          second{sides.second(random, written), sides.second_view, written.variables}, tally(tally) {}

    void run() {
        int climbing = random.pick(std::vector<int>{50, 70, 90, 97});
        first.open();
        second.open();
        meet();
        for (int steps = first.conflict ? 0 : step_count(); steps > 0; steps--) {
            first.wander(random, climbing);
            if (!first.conflict && first.level() > first.fixed && random.chance(4)) first.fix(first.fixed + 1);
            meet();
        }
    }

private:
    // Large formulas get fewer steps; some walks have eight times as many.
    int step_count() {
        int steps = random.between(5, 20 + 20000 / (400 + literal_count(written)));
        return random.chance(5) ? 8 * steps : steps;
    }

    // Out of conflict this is seldom where lookups take long.
    void meet() {
        if (!first.conflict && !first.engine->lookups_due(random)) return;
        if (second.fixed > 0 || random.chance(20)) second.open();
        second.backtrack_to(0);
        for (int detours = random.between(0, 3); detours > 0; detours--) detour();
        bool contradicted = catch_up(first.level());
        tally.add(first, second, contradicted);
        for (const Agent* agent : {&first, &second})
            expect(agent->engine->in_conflict() == agent->conflict, "a contradiction is told and not kept, or kept and not told");
        if (first.conflict) expect(contradicted, "the choices that contradict in a session are held by another without contradiction");
        if (!first.conflict && !contradicted) compare_lookups();
    }

    // The second agent makes some of the first's decisions and may fix some, makes others, and takes these back and some of the first's.
    void detour() {
        catch_up(random.between(0, first.level()));
        if (!second.conflict && random.chance(10)) second.fix(random.between(second.fixed, second.level()));
        for (int steps = random.between(0, 8); steps > 0; steps--) second.wander(random, 70);
        int shared = 0;
        while (shared < second.level() && first.holds(second.decisions[static_cast<size_t>(shared)])) shared++;
        second.backtrack_to(random.between(second.fixed, shared));
    }

    // The second agent, with some of the first's decisions and no others in force, makes up to so many more, in any order, but for those that are true
    // already. Whether they contradict, so that the first's have to: there is a conflict, or the opposite of one is true.
    bool catch_up(int count) {
        std::vector<int> lacking;
        std::copy_if(first.decisions.begin(), first.decisions.end(), std::back_inserter(lacking), [&](int literal) { return !second.holds(literal); });
        random.shuffle(lacking);
        bool contradicted = second.conflict;
        for (int literal : lacking)
            if (!contradicted && count-- > 0) contradicted = second.decide(literal) ? second.conflict : !second.settled(literal);
        expect(!contradicted || first.conflict, "the choices that a session holds without contradiction contradict in another");
        return contradicted;
    }

    void compare_lookups() {
        Lookups seen = first.lookups(), others = second.lookups();
        Numbers numbers = looked_up(static_cast<uint32_t>(written.variables));
        for (size_t i = 0; i < numbers.size(); i++) {
            if (i == 0 || i > static_cast<size_t>(written.variables)) compare_number(seen[i], c_refusal(13), "lookup of", numbers[i]);
            compare_number(unlevelled(others[i]), unlevelled(seen[i]), "but for the level, another session's lookup of", numbers[i]);
            tally.lookups++;
            if (seen[i] != others[i]) tally.levels++;
        }
    }

    Random random;
    Formula written;
    Agent first, second;
    Tally& tally;
};
