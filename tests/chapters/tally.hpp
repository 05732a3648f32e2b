// How many calls of each kind were compared; each kind has to be met often enough.
#pragma once
#include <algorithm>
#include <cstddef>
#include <cstdint>
#include <iostream>
#include <set>
#include <string>
#include <vector>

#include "../support/kinds.hpp"
#include "due.hpp"

class Tally {
public:
    void add(const Lending& lent, const Due& due) {
        calls++;
        filed.count(lent, due);
        others.count(lent, due);
        for (size_t i = 0; due.answer == FILED && i < CHAPTERS; i++) greatest = std::max(greatest, due.totals[i]);
    }

    void print(double seconds) const {
        std::cout << "chapters: " << calls << " calls compared, ";
        filed.print(ENOUGH);
        std::cout << "; the greatest total is " << greatest << "\nchapters: ";
        others.print(ENOUGH);
        std::cout << "; " << static_cast<int>(seconds + 0.5) << " s\n";
    }

private:
    static constexpr long ENOUGH = 200;

    using Kind = ::Kind<Lending, Due>;

    // Calls that are answered by true.
    template <class Condition>
    static Kind is_true(const std::string& name, Condition condition) {
        return {name, [condition](const Lending& lent, const Due& due) { return due.answer == FILED && condition(lent, due); }};
    }

    // Calls that are answered by false for a chapter over 31 alone.
    template <class Condition>
    static Kind is_misfiled(const std::string& name, Condition condition) {
        return {name, [condition](const Lending& lent, const Due& due) { return due.causes() == 1 && due.bad_chapter && condition(lent, due); }};
    }

    // Calls that are answered by false for too few chapters or totals alone.
    template <class Condition>
    static Kind is_short(const std::string& name, Condition condition) {
        return {name, [condition](const Lending& lent, const Due& due) { return due.causes() == 1 && !due.bad_chapter && condition(lent, due); }};
    }

    // The chapters of clauses, where they are lent.
    static Numbers chapters_of(const Lending& lent, const Due& due) {
        auto first = lent.chapters.memory.begin();
        return Numbers(first, first + static_cast<std::ptrdiff_t>(due.counts.size()));
    }

    static bool has(const Numbers& numbers, uint32_t number) { return std::find(numbers.begin(), numbers.end(), number) != numbers.end(); }

    static size_t chapters_used(const Lending& lent, const Due& due) {
        Numbers chapters = chapters_of(lent, due);
        return std::set<uint32_t>(chapters.begin(), chapters.end()).size();
    }

    static bool has_always_met(const Lending& lent, const Due& due) {
        for (size_t clause = 0; clause < due.counts.size(); clause++)
            if (lent.literals(clause) == 0 && due.counts[clause] > 0) return true;
        return false;
    }

    static bool is_wide(const Lending&, const Due& due) {
        return std::any_of(due.totals.begin(), due.totals.begin() + CHAPTERS, [](uint64_t total) { return total >> 32 != 0; });
    }

    static std::vector<Kind> filed_kinds() {
        return {
            is_true("true", [](const Lending&, const Due&) { return true; }),
            is_true("of these with C 0", [](const Lending&, const Due& due) { return due.counts.empty(); }),
            is_true("C 1", [](const Lending&, const Due& due) { return due.counts.size() == 1; }),
            is_true("C 1500", [](const Lending&, const Due& due) { return due.counts.size() == TARIFF_RULES; }),
            is_true("C chapters", [](const Lending& lent, const Due& due) { return lent.chapters.length == due.counts.size(); }),
            is_true("C + 1 chapters", [](const Lending& lent, const Due& due) { return lent.chapters.length == due.counts.size() + 1; }),
            is_true("over C + 100 chapters", [](const Lending& lent, const Due& due) { return lent.chapters.length > due.counts.size() + 100; }),
            is_true("one over 31 behind C", [](const Lending& lent, const Due&) { return has_bad_chapter(lent, lent.chapters.length); }),
            is_true("all rules in one", [](const Lending& lent, const Due& due) { return due.counts.size() > 1 && chapters_used(lent, due) == 1; }),
            is_true("rules in all 32", [](const Lending& lent, const Due& due) { return chapters_used(lent, due) == CHAPTERS; }),
            is_true("32 totals", [](const Lending& lent, const Due&) { return lent.totals.length == 32; }),
            is_true("33 totals", [](const Lending& lent, const Due&) { return lent.totals.length == 33; }),
            is_true("more totals", [](const Lending& lent, const Due&) { return lent.totals.length > 33; }),
            is_true("over 255 totals", [](const Lending& lent, const Due&) { return lent.totals.length > 255; }),
            is_true("all session numbers", [](const Lending& lent, const Due&) { return lent.session.length == TARIFF_SESSION; }),
            is_true("a total over 32 bits", is_wide),
            is_true("a full count", [](const Lending&, const Due& due) { return has(due.counts, 0xffffffffu); }),
            is_true("a count of an always-met rule", has_always_met),
            is_true("a contradiction", [](const Lending& lent, const Due&) { return lent.session.memory[CONFLICT] != 0; }),
            is_true("take-backs", [](const Lending& lent, const Due&) { return lent.session.memory[BACKTRACKS] != 0; }),
            is_true("1,000,000 take-backs", [](const Lending& lent, const Due&) { return lent.session.memory[BACKTRACKS] == 1000000; }),
            is_true("fixed choices", [](const Lending& lent, const Due&) { return lent.session.memory[FIXED] != 0; }),
        };
    }

    static std::vector<Kind> other_kinds() {
        auto is_11 = [](const Due& due) { return due.answer == c_refusal(11); };
        return {
            is_misfiled("false by a chapter over 31 alone", [](const Lending&, const Due&) { return true; }),
            is_misfiled("by 32", [](const Lending& lent, const Due& due) { return has(chapters_of(lent, due), 32); }),
            is_misfiled("by 4294967295", [](const Lending& lent, const Due& due) { return has(chapters_of(lent, due), 0xffffffffu); }),
            is_misfiled("at the first rule", [](const Lending& lent, const Due& due) { return is_bad(chapters_of(lent, due).front()); }),
            is_misfiled("at the last rule", [](const Lending& lent, const Due& due) { return is_bad(chapters_of(lent, due).back()); }),
            is_short("by too few chapters alone", [](const Lending&, const Due& due) { return due.few_chapters; }),
            is_short("by C - 1", [](const Lending& lent, const Due& due) { return lent.chapters.length + 1 == due.counts.size(); }),
            is_short("by no chapters", [](const Lending& lent, const Due& due) { return due.few_chapters && lent.chapters.length == 0; }),
            is_short("by too few totals alone", [](const Lending&, const Due& due) { return due.few_totals; }),
            is_short("by 31", [](const Lending& lent, const Due&) { return lent.totals.length == 31; }),
            is_short("by no totals", [](const Lending& lent, const Due&) { return lent.totals.length == 0; }),
            {"by several of these", [](const Lending&, const Due& due) { return due.causes() > 1; }},
            {"refused by 11", [=](const Lending&, const Due& due) { return is_11(due); }},
            {"by 12", [](const Lending&, const Due& due) { return due.answer == c_refusal(12); }},
            {"with too few totals", [](const Lending& lent, const Due& due) { return due.refused() && lent.totals.length < CHAPTERS; }},
            {"by 11 with no session numbers", [=](const Lending& lent, const Due& due) { return is_11(due) && lent.session.length == 0; }},
        };
    }

    long calls = 0;
    uint64_t greatest = 0;
    Kinds<Lending, Due> filed{filed_kinds()}, others{other_kinds()};
};
