// Draws what a call is lent on a session: counts, chapters and totals of many kinds, and damage.
#pragma once
#include <algorithm>
#include <cstddef>
#include <cstdint>
#include <optional>
#include <vector>

#include "../support/lent_session.hpp"
#include "lending.hpp"

class Draw {
public:
    Draw(Random& random, const Library& library) : random(random), parts(random, library, lent.book, lent.session) {
        counts();
        chapters();
        totals();
        refusal = parts.damage();
    }

    Lending lent;
    std::optional<uint64_t> refusal;  // the number by which the examination refuses, where it is known; 0 where it does not

private:
    size_t below(size_t n) { return static_cast<size_t>(random.below(static_cast<int>(n))); }
    uint32_t any() { return static_cast<uint32_t>(random.next()); }

    // As the session came to them; or any, all full, or any of the least and the greatest.
    void counts() {
        int kind = random.below(100);
        Numbers edges{0, 1, 0x7fffffffu, 0x80000000u, 0xfffffffeu, 0xffffffffu};
        for (size_t clause = 0; kind < 60 && clause < lent.clauses(); clause++)
            lent.session.memory[lent.count_place(clause)] = kind < 25 ? any() : kind < 40 ? 0xffffffffu : random.pick(edges);
    }

    // Any, all the same, every one in turn, or the first and the last.
    void good_chapters(size_t count) {
        int kind = random.below(4), one = random.below(CHAPTERS);
        for (size_t i = 0; i < count; i++) {
            int ends = random.chance(50) ? 0 : 31, turn = static_cast<int>(i % CHAPTERS);
            lent.chapters.memory.push_back(static_cast<uint32_t>(kind == 0 ? random.below(CHAPTERS) : kind == 1 ? one : kind == 2 ? turn : ends));
        }
        if (kind == 2) random.shuffle(lent.chapters.memory);
    }

    // The first ones over 31, those that are good in fewer bits or with a sign, the last one, or any.
    uint32_t bad_chapter() {
        Numbers edges{32, 33, 63, 64, 255, 256, 287, 65536, 0x7fffffffu, 0x80000000u, 0x8000001fu, 0xffffffe0u, 0xffffffffu};
        return random.chance(30) ? 32 : random.chance(80) ? random.pick(edges) : std::max(any(), 32u);
    }

    // Some more than there are clauses, of which one may be bad, and as many lent as there are clauses, or more.
    void chapters() {
        size_t clauses = lent.clauses(), more = random.chance(10) ? TARIFF_RULES : 1 + below(40);
        good_chapters(clauses + more);
        if (random.chance(60)) lent.chapters.memory[clauses + (random.chance(60) ? 0 : below(more))] = bad_chapter();
        lent.chapters.length = random.chance(50) ? clauses : clauses + below(more + 1);
        if (clauses > 0) spoil_chapters(clauses);
    }

    // The chapter of a clause may be bad, and fewer may be lent than there are clauses.
    void spoil_chapters(size_t clauses) {
        std::vector<size_t> places{0, clauses / 2, clauses - 1, below(clauses)}, lengths{0, below(clauses), clauses - 1, clauses - 1};
        if (random.chance(25)) lent.chapters.memory[random.pick(places)] = bad_chapter();
        if (random.chance(18)) lent.chapters.length = random.pick(lengths);
    }

    // Any numbers were there before, and some behind what is lent.
    void totals() {
        size_t length = random.pick(std::vector<size_t>{32, 32, 33, 34 + below(random.chance(80) ? 40 : 1000)});
        if (random.chance(18)) length = random.pick(std::vector<size_t>{0, below(32), 31, 31});
        lent.totals = {Sums(CHAPTERS + length + 2), length};
        int kind = random.below(4);
        for (uint64_t& total : lent.totals.memory) total = kind == 0 ? ~uint64_t{0} : kind == 1 ? any() : random.next();
    }

    Random& random;
    LentSession parts;
};
