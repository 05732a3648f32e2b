// Other ways to file than the library's call: wrong ones, most of which change what that is lent or what it leaves, and right ones; and wrong ones of what
// it is compared with, and of what the header says of its answer.
#pragma once
#include <algorithm>
#include <cstddef>
#include <cstdint>
#include <numeric>
#include <string>
#include <utility>
#include <vector>

#include "../support/call_then.hpp"
#include "due.hpp"

namespace methods {

// The library's call with something else lent; the totals are written as it writes them there.
template <class Change>
Method lent_otherwise(Change change) {
    return [change](Lending& lent) {
        Lending other = lent;
        change(other);
        uint64_t answer = by_library(other);
        lent.totals.memory = other.totals.memory;
        return answer;
    };
}

// The library's call with each chapter changed.
template <class Change>
Method chapters_as(Change change) {
    return lent_otherwise([change](Lending& other) {
        for (uint32_t& chapter : other.chapters.memory) chapter = change(chapter);
    });
}

// The library's call, but false is answered where this holds, unless the examination refuses.
template <class Condition>
Method false_where(Condition condition) {
    return lent_otherwise([condition](Lending& other) {
        if (condition(other)) other.totals.length = 0;
    });
}

// The library's call; then its answer and what it left are changed, by what was lent before.
template <class Change>
Method then(Change change) {
    return call_then(by_library, change);
}

// The library's call with another answer.
template <class Change>
Method answer_as(Change change) {
    return then([change](uint64_t answer, Lending&, const Lending&) -> uint64_t { return change(answer); });
}

// The library's call; where it wrote totals, they are changed, by what was lent before.
template <class Change>
Method where_filed(Change change) {
    auto filed = [](uint64_t answer) { return answer == FILED; };
    return call_then_where(by_library, filed, [change](Lending& lent, const Lending& before) { change(lent.totals.memory, before); });
}

// The library's call; where it wrote totals, `visit(clause, count, total of its chapter)` is called for each clause.
template <class Visit>
Method for_clauses(Visit visit) {
    return where_filed([visit](Sums& totals, const Lending& before) {
        Numbers counts;
        copy_counts(before, counts);
        for (size_t clause = 0; clause < counts.size(); clause++) visit(before, clause, counts[clause], totals[before.chapters.memory[clause]]);
    });
}

// The library's call; where it wrote totals, each is changed, by the number that was there before.
template <class Change>
Method totals_as(Change change) {
    return where_filed([change](Sums& totals, const Lending& before) {
        for (size_t chapter = 0; chapter < CHAPTERS; chapter++) totals[chapter] = change(totals[chapter], before.totals.memory[chapter]);
    });
}

inline void clear(Lending& lent) { std::fill_n(lent.totals.memory.begin(), std::min(CHAPTERS, lent.totals.length), 0); }

// The clauses whose chapters are there, whatever a book at fault says.
inline size_t clauses_there(const Lending& lent) { return std::min(lent.clauses(), lent.chapters.memory.size()); }

inline bool is_filed(const Lending& lent, uint32_t chapter) {
    auto first = lent.chapters.memory.begin(), end = first + static_cast<std::ptrdiff_t>(clauses_there(lent));
    return std::find(first, end, chapter) != end;
}

// A clause in chapter 32 is in none.
inline void drop_32(Lending& other) {
    for (size_t clause = 0; clause < clauses_there(other); clause++) {
        if (other.chapters.memory[clause] != 32) continue;
        other.chapters.memory[clause] = 0;
        if (other.count_place(clause) < other.session.memory.size()) other.session.memory[other.count_place(clause)] = 0;
    }
}

// Of one clause the chapter is cut to 5 bits and so is good.
inline void overlook(Lending& other, size_t clause) {
    if (clause < clauses_there(other)) other.chapters.memory[clause] %= CHAPTERS;
}

// The same of the clauses of which this holds, where the session passes.
template <class Condition>
Method overlooked(Condition condition) {
    return lent_otherwise([condition](Lending& other) {
        Numbers counts;
        copy_counts(other, counts);
        for (size_t clause = 0; clause < counts.size(); clause++)
            if (condition(other, clause, counts[clause])) overlook(other, clause);
    });
}

inline void fill_missing(Lending& other) {
    for (size_t i = other.chapters.length; i < clauses_there(other); i++) other.chapters.memory[i] = 0;
    other.chapters.length = std::max(other.chapters.length, clauses_there(other));
}

// Fewer totals than 32 are filled as far as they go.
inline uint64_t fill_room(Lending& lent) {
    const Sums before = lent.totals.memory;
    const size_t room = lent.totals.length;
    lent.totals.length = std::max(room, CHAPTERS);
    uint64_t answer = by_library(lent);
    lent.totals.length = room;
    for (size_t i = room; i < CHAPTERS; i++) lent.totals.memory[i] = before[i];
    return answer;
}

// The totals of the session as it was opened.
inline void open_again(Lending& other) {
    uint64_t sum = 0;
    if (tariff_kind(copy_total(other, sum)) == TARIFF_REFUSED) return;
    tariff_open(other.book.memory.data(), other.book.length, other.session.memory.data(), other.session.length);
}

inline void leave_unused(Sums& totals, const Lending& before) {
    for (size_t chapter = 0; chapter < CHAPTERS; chapter++)
        if (!is_filed(before, static_cast<uint32_t>(chapter))) totals[chapter] = before.totals.memory[chapter];
}

inline void move_behind(Sums& totals, const Lending& before) {
    if (before.totals.length > CHAPTERS) totals[CHAPTERS] = std::accumulate(totals.begin(), totals.begin() + CHAPTERS, uint64_t{0});
}

inline void clear_behind(Sums& totals, const Lending& before) {
    if (before.totals.length > CHAPTERS) totals[before.totals.length - 1] = 0;
}

inline bool is_refused(uint64_t answer) { return tariff_kind(answer) == TARIFF_REFUSED; }

// The causes of false are looked for before the examination.
inline uint64_t false_first(uint64_t answer, Lending&, const Lending& before) {
    size_t clauses = clauses_there(before);
    bool fits = !has_bad_chapter(before, clauses) && before.chapters.length >= clauses && before.totals.length >= CHAPTERS;
    return fits ? answer : NOT_FILED;
}

inline uint64_t session_first(uint64_t answer, Lending&, const Lending& before) {
    return answer == c_refusal(11) && before.session.length < HEADER ? c_refusal(12) : answer;
}

inline uint64_t clear_where_false(uint64_t answer, Lending& lent, const Lending&) {
    if (answer == NOT_FILED) clear(lent);
    return answer;
}

inline uint64_t clear_where_refused(uint64_t answer, Lending& lent, const Lending&) {
    if (is_refused(answer)) clear(lent);
    return answer;
}

inline uint64_t sort_chapters(uint64_t answer, Lending& lent, const Lending&) {
    std::sort(lent.chapters.memory.begin(), lent.chapters.memory.begin() + static_cast<std::ptrdiff_t>(lent.chapters.length));
    return answer;
}

inline uint64_t mark_book(uint64_t answer, Lending& lent, const Lending&) {
    lent.book.memory.back()++;
    return answer;
}

// A session that passes is refused by this number where this holds.
template <class Condition>
Method refused_where(uint64_t number, Condition condition) {
    return [number, condition](Lending& lent) {
        uint64_t sum = 0;
        return !is_refused(copy_total(lent, sum)) && condition(lent) ? c_refusal(number) : by_library(lent);
    };
}

inline bool in_conflict(const Lending& lent) { return lent.session.length > CONFLICT && lent.session.memory[CONFLICT] != 0; }

inline uint64_t take_counts(uint64_t answer, Lending& lent, const Lending&) {
    for (size_t clause = 0; answer == FILED && clause < lent.clauses(); clause++) lent.session.memory[lent.count_place(clause)] = 0;
    return answer;
}

// Right: the clauses sorted by their chapters, and each run of them summed.
inline uint64_t by_sorting(Lending& lent) {
    Numbers counts;
    uint64_t answer = copy_counts(lent, counts);
    if (is_refused(answer)) return answer;
    if (lent.totals.length < CHAPTERS || lent.chapters.length < counts.size()) return NOT_FILED;
    std::vector<std::pair<uint32_t, uint64_t>> filed;
    for (size_t clause = 0; clause < counts.size(); clause++) filed.emplace_back(lent.chapters.memory[clause], counts[clause]);
    std::sort(filed.begin(), filed.end());
    if (!filed.empty() && filed.back().first >= CHAPTERS) return NOT_FILED;
    auto next = filed.begin();
    for (uint32_t chapter = 0; chapter < CHAPTERS; chapter++) {
        auto end = std::find_if(next, filed.end(), [&](const auto& one) { return one.first != chapter; });
        lent.totals.memory[chapter] = std::accumulate(next, end, uint64_t{0}, [](uint64_t sum, const auto& one) { return sum + one.second; });
        next = end;
    }
    return FILED;
}

// Right: the library's total of a session in which the counts of one chapter alone are not 0, for each chapter.
inline uint64_t by_totals(Lending& lent) {
    Sums sums(CHAPTERS);
    Due due = due_of(lent);
    if (due.answer != FILED) return due.answer;
    for (uint32_t chapter = 0; chapter < CHAPTERS; chapter++) {
        Lending alone = lent;
        for (size_t clause = 0; clause < lent.clauses(); clause++)
            if (lent.chapters.memory[clause] != chapter) alone.session.memory[lent.count_place(clause)] = 0;
        copy_total(alone, sums[chapter]);
    }
    std::copy(sums.begin(), sums.end(), lent.totals.memory.begin());
    return FILED;
}

struct Named {
    Named(const std::string& name, const Method& file) : name(name) { ways.file = file; }
    Named(const std::string& name, const Ways& ways) : name(name), ways(ways) {}

    std::string name;
    Ways ways;
};

// Wrong in what is taken for a chapter.
inline std::vector<Named> wrong_chapters() {
    return {
        {"32 filed in 31", chapters_as([](uint32_t chapter) { return chapter == 32 ? 31 : chapter; })},
        {"all over 31 filed in 31", chapters_as([](uint32_t chapter) { return std::min(chapter, 31u); })},
        {"32 dropped", lent_otherwise(drop_32)},
        {"chapters modulo 32", chapters_as([](uint32_t chapter) { return chapter % 32; })},
        {"chapters in 8 bits", chapters_as([](uint32_t chapter) { return chapter & 255; })},
        {"chapters with a sign", chapters_as([](uint32_t chapter) { return chapter >> 31 != 0 ? 0 : chapter; })},
        {"31 refused", false_where([](const Lending& other) { return is_filed(other, 31); })},
        {"0 refused", false_where([](const Lending& other) { return is_filed(other, 0); })},
        {"the first rule's chapter not looked at", lent_otherwise([](Lending& other) { overlook(other, 0); })},
        {"the last rule's chapter not looked at", lent_otherwise([](Lending& other) { overlook(other, other.clauses() - 1); })},
        {"chapters behind looked at", false_where([](const Lending& other) { return has_bad_chapter(other, other.chapters.length); })},
        {"the chapter behind C looked at", false_where([](const Lending& other) { return has_bad_chapter(other, clauses_there(other) + 1); })},
        {"more chapters refused", false_where([](const Lending& other) { return other.chapters.length > other.clauses(); })},
        {"C chapters refused", false_where([](const Lending& other) { return other.chapters.length <= other.clauses(); })},
        {"missing chapters taken as 0", lent_otherwise(fill_missing)},
        {"missing chapters looked for behind", lent_otherwise([](Lending& other) { other.chapters.length = other.chapters.memory.size(); })},
        {"always-met rules' chapters not looked at",
         overlooked([](const Lending& lent, size_t clause, uint32_t) { return lent.literals(clause) == 0; })},
        {"one-literal rules' chapters not looked at",
         overlooked([](const Lending& lent, size_t clause, uint32_t) { return lent.literals(clause) == 1; })},
        {"chapters of rules without checks not looked at", overlooked([](const Lending&, size_t, uint32_t count) { return count == 0; })},
        {"many chapters refused", false_where([](const Lending& other) { return other.chapters.length > other.clauses() + 100; })},
        {"chapters from the back", lent_otherwise([](Lending& other) {
             std::reverse(other.chapters.memory.begin(), other.chapters.memory.begin() + static_cast<std::ptrdiff_t>(other.chapters.length));
         })},
    };
}

// Wrong in the room for totals and in what is written there.
inline std::vector<Named> wrong_totals() {
    return {
        {"32 totals refused", false_where([](const Lending& other) { return other.totals.length == CHAPTERS; })},
        {"more totals refused", false_where([](const Lending& other) { return other.totals.length > CHAPTERS; })},
        {"many totals refused", false_where([](const Lending& other) { return other.totals.length > 255; })},
        {"fewer totals filled", fill_room},
        {"32 totals written in any room", lent_otherwise([](Lending& other) { other.totals.length = CHAPTERS; })},
        {"lent totals counted in", totals_as([](uint64_t total, uint64_t before) { return total + before; })},
        {"the first total not cleared", where_filed([](Sums& totals, const Lending& before) { totals[0] += before.totals.memory[0]; })},
        {"the last total not written", where_filed([](Sums& totals, const Lending& before) { totals[31] = before.totals.memory[31]; })},
        {"totals of no rule not written", where_filed(leave_unused)},
        {"the sum behind", where_filed(move_behind)},
        {"the last one behind cleared", where_filed(clear_behind)},
        {"one written behind the lent ones", where_filed([](Sums& totals, const Lending& before) { totals[before.totals.length] = 0; })},
        {"totals from the back", where_filed([](Sums& totals, const Lending&) { std::reverse(totals.begin(), totals.begin() + CHAPTERS); })},
        {"nothing written", where_filed([](Sums& totals, const Lending& before) { totals = before.totals.memory; })},
    };
}

// Wrong in the sums.
inline std::vector<Named> wrong_sums() {
    using Count = uint32_t;
    return {
        {"the first rule left out",
         for_clauses([](const Lending&, size_t clause, Count count, uint64_t& total) { total -= clause == 0 ? count : 0; })},
        {"the last rule left out",
         for_clauses([](const Lending& lent, size_t clause, Count count, uint64_t& total) { total -= clause + 1 == lent.clauses() ? count : 0; })},
        {"a rule counted twice",
         for_clauses([](const Lending& lent, size_t clause, Count count, uint64_t& total) { total += clause == lent.clauses() / 2 ? count : 0; })},
        {"always-met rules left out",
         for_clauses([](const Lending& lent, size_t clause, Count count, uint64_t& total) { total -= (lent.literals(clause) == 0) ? count : 0; })},
        {"full counts left out", for_clauses([](const Lending&, size_t, Count count, uint64_t& total) { total -= count == ~Count{0} ? count : 0; })},
        {"counts with a sign", for_clauses([](const Lending&, size_t, Count count, uint64_t& total) { total -= uint64_t{count >> 31} << 32; })},
        {"rules for checks", for_clauses([](const Lending&, size_t, Count count, uint64_t& total) { total += 1 - uint64_t{count}; })},
        {"sums in 32 bits", totals_as([](uint64_t total, uint64_t) { return total & 0xffffffffu; })},
        {"sums that stop at 32 bits", totals_as([](uint64_t total, uint64_t) { return std::min(total, uint64_t{0xffffffffu}); })},
        {"the opening's sums", lent_otherwise(open_again)},
    };
}

// Wrong in the answer, and in what stays with it.
inline std::vector<Named> wrong_answers() {
    return {
        {"false before 11 and 12", then(false_first)},
        {"12 before 11 where a session is shorter than its header", then(session_first)},
        {"12 for 11", answer_as([](uint64_t answer) { return answer == c_refusal(11) ? c_refusal(12) : answer; })},
        {"11 for 12", answer_as([](uint64_t answer) { return answer == c_refusal(12) ? c_refusal(11) : answer; })},
        {"false for a refusal", answer_as([](uint64_t answer) { return is_refused(answer) ? NOT_FILED : answer; })},
        {"a refusal for false", answer_as([](uint64_t answer) { return answer == NOT_FILED ? c_refusal(10) : answer; })},
        {"true for false", answer_as([](uint64_t answer) { return answer == NOT_FILED ? FILED : answer; })},
        {"false for true", answer_as([](uint64_t answer) { return answer == FILED ? NOT_FILED : answer; })},
        {"32 for true", answer_as([](uint64_t answer) { return answer == FILED ? CHAPTERS : answer; })},
        {"false in contradiction", false_where(in_conflict)},
        {"14 in contradiction", refused_where(14, in_conflict)},
        {"12 at 1,000,000 take-backs", refused_where(12, [](const Lending& lent) { return lent.session.memory[BACKTRACKS] == 1000000; })},
        {"12 for a session of all numbers", refused_where(12, [](const Lending& lent) { return lent.session.length == TARIFF_SESSION; })},
        {"totals cleared and false", then(clear_where_false)},
        {"totals cleared and refused", then(clear_where_refused)},
        {"a number of the book changed", then(mark_book)},
        {"chapters sorted where they are lent", then(sort_chapters)},
        {"counts taken out of the session", then(take_counts)},
    };
}

// Wrong in what the call is compared with, the counts of the checks and the session's total, and in what the header says of its answer.
inline std::vector<Named> wrong_others() {
    Ways eleven, low, refused, nonzero, accepted;
    auto as_12 = [](uint64_t answer) { return answer == c_refusal(11) ? c_refusal(12) : answer; };
    eleven.counts = [=](const Lending& lent, Numbers& counts) { return as_12(copy_counts(lent, counts)); };
    eleven.file = answer_as(as_12);
    low.total = [](const Lending& lent, uint64_t& sum) {
        uint64_t answer = copy_total(lent, sum);
        sum &= 0xffffffffu;
        return answer;
    };
    refused.total = [](const Lending& lent, uint64_t& sum) {
        copy_total(lent, sum);
        return c_refusal(12);
    };
    nonzero.filed = [](uint64_t answer) { return uint32_t{answer != 0}; };
    accepted.filed = [](uint64_t answer) { return uint32_t{tariff_kind(answer) == TARIFF_ACCEPTED}; };
    return {{"the checks and the call refused by 12 for 11", eleven}, {"the session's total in 32 bits", low}, {"the session's total refused", refused},
            {"a refusal taken for true", nonzero}, {"false taken for true", accepted}};
}

inline std::vector<Named> wrong_list() {
    std::vector<Named> all = wrong_chapters();
    for (const std::vector<Named>& more : {wrong_totals(), wrong_sums(), wrong_answers(), wrong_others()}) all.insert(all.end(), more.begin(), more.end());
    return all;
}

inline std::vector<Named> right_list() { return {{"sums by sorting", by_sorting}, {"sums by the total of each chapter alone", by_totals}}; }

}  // namespace methods
