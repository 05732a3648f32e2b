// The written run, from documents 01 and 02 and not from the definitions or the code: trail, watches, pointers, lists, conflict, fixed decisions, counts.
// tests/agreement makes sessions by it, too.
#pragma once
#include <algorithm>
#include <cstddef>
#include <cstdint>
#include <cstdlib>
#include <deque>
#include <limits>
#include <list>
#include <numeric>
#include <optional>
#include <string>
#include <vector>

#include "../support/answer.hpp"
#include "../support/formula.hpp"
#include "../support/session.hpp"

// One step taken otherwise than document 01, K4, K5 and K7 say.
enum class Fault {
    NONE,
    SCANS_FROM_ZERO,     // a scan starts at position 0, not behind the pointer
    SCANS_SATISFIED,     // a clause is scanned although its other watch is true
    RESTORES_POINTERS,   // a backtrack puts the pointers back
    MOVES_TO_UNHANDLED,  // a watch moves to a literal that is false but not handled yet
    MOVES_TO_HANDLED,    // a watch moves to a literal that is false since before the latest decision
    KEEPS_UNHANDLED,     // unhandled literals stay to be handled over a backtrack
    PUTS_BEHIND,         // a clause goes to the back of a watch list
    CONTRADICTS_EMPTY,   // a clause of no literals is a conflict at the opening
    TAKES_FIXED,         // a backtrack reaches fixed decisions
    FREES_FIXED,         // a backtrack reaches them in a conflict
    STOPS_ABOVE_FIXED,   // a backtrack down to the fixed decisions is refused
    COUNT_FIRST,         // 17 is given before 16 where a backtrack reaches them
    DROPS_FIXED,         // a backtrack leaves no decision fixed
    OPENS_FIXED,         // an opening leaves as many fixed as before
    FIXES_DECISIONS,     // a decision fixes one more
    FIXED_FALLS,         // a fixing of fewer than before is accepted
    FIXES_BEYOND,        // a fixing of more than are in force is accepted
    REFUSES_SAME,        // a fixing of as many as before is refused
    FIXES_IN_CONFLICT,   // a fixing in a conflict is accepted
    RANGE_FIRST,         // 22 is given before 14
    FIXES_REFUSED,       // a fixing that is refused fixes
    COUNTS_FIXING,       // a fixing is counted as a backtrack
    PASSES_BEYOND,       // a lent session with more fixed than are in force passes
    LEVEL_NOW,           // a lookup tells the decisions in force, whatever the level
    LEVEL_BEFORE,        // of a decision, one level too low
    LEVEL_BEHIND,        // of an implied literal, one level too high
    LEVEL_BELOW,         // of all that is assigned after the opening, one level too low
    LEVEL_AS_PLACE,      // the place on the trail for the level
    LEVEL_PAST_FIXED,    // the level above the fixed decisions
    LEVEL_OF_DECISIONS,  // of an implied literal, level 0
    LEVEL_OF_FALSE,      // of an implied literal, the level of another literal of its clause
    LEVEL_LEFT_OUT,      // no level
    LEVEL_NO_CONFLICT,   // no level in a conflict
    LEVEL_AT_FIRST,      // the level when the variable was first assigned since the opening
    LEVEL_EVER,          // decisions that were taken back are counted, too
    LEVEL_RESET,         // after a backtrack, the level that it ended at
    LEVEL_OF_OPEN,       // an open variable has a level
    SIGN_TURNED,         // positive and negative are exchanged
    TOP_OPEN,            // in a conflict the top level is open
    OPEN_BEYOND,         // numbers above the variables are looked up as open
    OPEN_AT_ZERO,        // number 0 is looked up as open
    WRAPS_NUMBERS,       // lookups disregard the highest bit of a number
};

// A literal as a number: 2 x variable, plus 1 if negative.
inline uint32_t literal_number(int literal) { return 2 * static_cast<uint32_t>(std::abs(literal)) + (literal < 0 ? 1 : 0); }
inline int literal_of(uint32_t number) { return number % 2 == 0 ? static_cast<int>(number / 2) : -static_cast<int>(number / 2); }

// What the run keeps of a clause; a clause of fewer than two literals has no watches and no pointer.
struct Watched {
    int positions[2] = {0, 0};
    int pointer = 0;
    uint32_t checks = 0;
};

class Run {
public:
    explicit Run(const Formula& formula, Fault fault = Fault::NONE)
        : formula(formula), fault(fault), clauses(formula.clauses.size()), lists(2 * static_cast<size_t>(formula.variables) + 2),
          values(formula.variables + 1, 0), stamps(values.size(), UNSTAMPED) {}

    // Whatever was there before.
    Answer open() {
        clear();
        for (size_t clause = 0; clause < clauses.size(); clause++)
            if (formula.clauses[clause].size() >= 2) watch_first_two(clause);
        for (size_t clause = 0; clause < clauses.size() && conflict == 0; clause++) {
            if (formula.clauses[clause].size() == 1) imply_or_contradict(clause, formula.clauses[clause][0]);
            if (formula.clauses[clause].empty() && fault == Fault::CONTRADICTS_EMPTY) conflict = clause + 1;
        }
        propagate();
        return propagated(0, 0);
    }

    // Any number may be asked for; one that is no literal, or is refused otherwise, changes nothing.
    Answer decide(uint32_t number) {
        int refusal = decision_refusal(number);
        if (refusal != 0) return refused(refusal);
        if (fault == Fault::RESTORES_POINTERS) kept.push_back(clauses);
        starts.push_back(trail.size());
        made++;
        if (fault == Fault::FIXES_DECISIONS) fixed++;
        assign(literal_of(number));
        propagate();
        return propagated(literal_of(number), starts.back() + 1);
    }

    Answer backtrack(uint32_t k) {
        int refusal = backtrack_refusal(k);
        if (refusal != 0) return refused(refusal);
        size_t level = starts.size() - k;
        for (; trail.size() > starts[level]; trail.pop_back()) values[std::abs(trail.back())] = 0;
        starts.resize(level);
        conflict = 0;
        backtracks++;
        if (fault == Fault::DROPS_FIXED) fixed = 0;
        if (fault == Fault::LEVEL_RESET)
            for (int literal : trail) stamps[std::abs(literal)] = static_cast<uint32_t>(level);
        if (fault != Fault::KEEPS_UNHANDLED) unhandled.clear();  // those of lower levels were handled when their calls ended
        if (fault == Fault::RESTORES_POINTERS) restore_pointers(level);
        Answer answer;
        answer.kind = Answer::BACK;
        answer.number = static_cast<int>(k);
        return answer;
    }

    // The first f decisions are fixed; 0, or the number with which this is refused.
    int fix(uint32_t f) {
        int refusal = fix_refusal(f);
        if (refusal == 0 || fault == Fault::FIXES_REFUSED) fixed = f;
        if (refusal == 0 && fault == Fault::COUNTS_FIXING) backtracks++;
        return refusal;
    }

    // Whether so many fixed decisions pass the examination of a lent session.
    bool fixed_passes() const { return fixed <= starts.size() || fault == Fault::PASSES_BEYOND; }

    Answer end() const {
        Answer answer;
        answer.kind = Answer::END;
        answer.decisions = starts.size();
        answer.backtracks = backtracks;
        answer.checks = total();
        return answer;
    }

    // Of each trail place: the decisions up to and including it.
    std::vector<uint32_t> levels() const {
        std::vector<uint32_t> found;
        uint32_t level = 0;
        for (size_t place = 0; place < trail.size(); place++) {
            if (level < starts.size() && starts[level] == place) level++;
            found.push_back(level);
        }
        return found;
    }

    uint64_t total() const {
        return std::accumulate(clauses.begin(), clauses.end(), uint64_t{0}, [](uint64_t sum, const Watched& w) { return sum + w.checks; });
    }

    int value(int literal) const { return literal > 0 ? values[literal] : -values[-literal]; }

    // What some faults tell for the level of an assigned variable.
    uint32_t stamp(int variable) const { return stamps[variable]; }

    const Formula& formula;
    const Fault fault;
    std::vector<int> trail;
    std::vector<size_t> starts;  // the place of each decision on the trail
    std::vector<Watched> clauses;
    std::vector<std::list<size_t>> lists;  // by literal number: clauses, from 0, front to back
    size_t conflict = 0;                   // the conflict clause, from 1; 0 out of conflict
    uint64_t backtracks = 0;
    uint32_t fixed = 0;  // so many decisions, the oldest ones, are not taken back

private:
    static constexpr uint32_t UNSTAMPED = std::numeric_limits<uint32_t>::max();

    static Answer refused(int number) {
        Answer answer;
        answer.number = number;
        return answer;
    }

    int decision_refusal(uint32_t number) const {
        if (number < 2 || number > 2 * static_cast<uint32_t>(formula.variables) + 1) return 13;
        if (conflict != 0) return 14;
        return value(literal_of(number)) != 0 ? 15 : 0;
    }

    bool reaches_fixed(uint32_t k) const {
        if (fault == Fault::TAKES_FIXED || (fault == Fault::FREES_FIXED && conflict != 0)) return false;
        size_t above = fault == Fault::STOPS_ABOVE_FIXED && fixed > 0 ? 1 : 0;
        return k + above + fixed > starts.size();
    }

    int backtrack_refusal(uint32_t k) const {
        if (k == 0 || k > starts.size()) return 16;
        bool worn = backtracks == MAX_BACKTRACKS;
        if (worn && fault == Fault::COUNT_FIRST) return 17;
        if (reaches_fixed(k)) return 16;
        return worn ? 17 : 0;
    }

    bool outside(uint32_t f) const {
        if (f == fixed) return fault == Fault::REFUSES_SAME;
        return f < fixed ? fault != Fault::FIXED_FALLS : f > starts.size() && fault != Fault::FIXES_BEYOND;
    }

    int fix_refusal(uint32_t f) const {
        if (outside(f) && fault == Fault::RANGE_FIRST) return 22;
        if (conflict != 0 && fault != Fault::FIXES_IN_CONFLICT) return 14;
        return outside(f) ? 22 : 0;
    }

    void clear() {
        trail.clear();
        starts.clear();
        unhandled.clear();
        kept.clear();
        clauses.assign(clauses.size(), Watched{});
        lists.assign(lists.size(), {});
        values.assign(values.size(), 0);
        stamps.assign(stamps.size(), UNSTAMPED);
        conflict = backtracks = made = 0;
        if (fault != Fault::OPENS_FIXED) fixed = 0;
    }

    // What an opening or a decision comes to; the literals from a place on were implied by it.
    Answer propagated(int decision, size_t from) const {
        Answer answer;
        answer.kind = conflict != 0 ? Answer::CONFLICT : Answer::IMPLIED;
        answer.decision = decision;
        answer.clause = static_cast<int>(conflict);
        if (conflict == 0) answer.implied.assign(trail.begin() + static_cast<std::ptrdiff_t>(from), trail.end());
        return answer;
    }

    void watch_first_two(size_t clause) {
        clauses[clause] = Watched{{0, 1}, 1, 0};
        for (int position : {0, 1}) put(clause, formula.clauses[clause][position]);
    }

    // To the front of a literal's watch list.
    void put(size_t clause, int literal) {
        std::list<size_t>& list = lists[literal_number(literal)];
        list.insert(fault == Fault::PUTS_BEHIND ? list.end() : list.begin(), clause);
    }

    void assign(int literal) {
        trail.push_back(literal);
        values[std::abs(literal)] = literal > 0 ? 1 : -1;
        unhandled.push_back(literal);
        uint32_t& stamp = stamps[std::abs(literal)];
        if (fault == Fault::LEVEL_AT_FIRST && stamp != UNSTAMPED) return;
        stamp = static_cast<uint32_t>(fault == Fault::LEVEL_EVER ? made : starts.size());
    }

    // All other literals of the clause are false: an open one is implied, a false one is a conflict.
    void imply_or_contradict(size_t clause, int literal) {
        if (value(literal) < 0) conflict = clause + 1;
        if (value(literal) != 0) return;
        assign(literal);
        if (fault != Fault::LEVEL_OF_FALSE) return;
        for (int other : formula.clauses[clause])
            if (other != literal) stamps[std::abs(literal)] = stamps[std::abs(other)];
    }

    // Trail literals are handled once each, in trail order, until a conflict.
    void propagate() {
        while (conflict == 0 && !unhandled.empty()) {
            int literal = unhandled.front();
            unhandled.pop_front();
            read_list(-literal);
        }
    }

    // Front to back; a clause whose watch moves leaves the list. A conflict ends it.
    void read_list(int literal) {
        std::list<size_t>& list = lists[literal_number(literal)];
        for (auto at = list.begin(); at != list.end() && conflict == 0;) {
            bool moved = visit(*at, literal);
            at = moved ? list.erase(at) : std::next(at);
        }
    }

    // A clause on the list of `literal`; true where its watch moves to another literal.
    bool visit(size_t clause, int literal) {
        Watched& watched = clauses[clause];
        const Clause& literals = formula.clauses[clause];
        int read = literals[watched.positions[0]] == literal ? 0 : 1;
        int other = literals[watched.positions[1 - read]];
        if (value(other) > 0 && fault != Fault::SCANS_SATISFIED) return false;
        std::optional<int> found = scan(literals, watched);
        if (!found) {
            imply_or_contradict(clause, other);
            return false;
        }
        watched.positions[read] = *found;
        watched.pointer = *found;
        put(clause, literals[*found]);
        return true;
    }

    // The first position behind the pointer, round the clause, that is neither watched nor false; each one looked at is a check.
    std::optional<int> scan(const Clause& literals, Watched& watched) {
        int n = static_cast<int>(literals.size()), first = fault == Fault::SCANS_FROM_ZERO ? 0 : watched.pointer + 1;
        for (int visited = 0; visited < n; visited++) {
            int position = (first + visited) % n;
            if (position == watched.positions[0] || position == watched.positions[1]) continue;
            if (watched.checks < std::numeric_limits<uint32_t>::max()) watched.checks++;
            if (value(literals[position]) >= 0 || passes_for_open(literals[position])) return position;
        }
        return std::nullopt;
    }

    bool passes_for_open(int literal) const {
        auto among = [&](auto begin, auto end) { return std::find(begin, end, -literal) != end; };
        if (fault == Fault::MOVES_TO_UNHANDLED) return among(unhandled.begin(), unhandled.end());
        return fault == Fault::MOVES_TO_HANDLED && !starts.empty() && among(trail.begin(), trail.begin() + static_cast<std::ptrdiff_t>(starts.back()));
    }

    void restore_pointers(size_t level) {
        for (size_t clause = 0; clause < clauses.size(); clause++) clauses[clause].pointer = kept[level][clause].pointer;
        kept.resize(level);
    }

    std::vector<int> values;                 // by variable: 1 true, -1 false, 0 open
    std::deque<int> unhandled;               // trail literals, the oldest first
    std::vector<std::vector<Watched>> kept;  // before each decision, for the fault that restores pointers
    std::vector<uint32_t> stamps;            // by variable, for faults of lookups; stays over a backtrack
    uint64_t made = 0;                       // decisions since the opening
};
