// The claim of a quote: a script never costs more checks than the ceiling, and a session opens in the quoted length and in no less.
#pragma once
#include <algorithm>
#include <cstddef>
#include <cstdint>
#include <functional>
#include <iostream>
#include <string>

#include "../counts/judge.hpp"
#include "../support/text.hpp"
#include "due.hpp"

// The second run as an engine in the library's place.
struct RunEngine {
    Run run;

    void open() { run.open(); }
    uint64_t take(const Call& call) { return answer_call(run, call); }
    uint64_t total() const { return run.total(); }
};

template <class Engine>
void compare_cost(const Engine& engine, const Due& quoted, uint64_t backs, size_t line) {
    uint64_t total = engine.total(), front = product(quoted.worst, backs);
    std::string behind = " behind line " + std::to_string(line) + ": " + std::to_string(total);
    expect(total <= quoted.ceiling, "checks over the ceiling" + behind);
    expect(total <= front, "checks over the ceiling of the lines so far" + behind);
}

// Behind the opening and behind each line the checks are within the quote, and within that of the lines so far; then other calls may be made.
template <class Engine, class Between>
uint64_t follow_script(Engine& engine, const std::string& script, const Due& quoted, Between between) {
    uint64_t backs = 0;
    size_t number = 0;
    engine.open();
    compare_cost(engine, quoted, backs, number);
    for (const std::string& line : lines_of(script)) {
        Command command = parse_command(line);
        number++;
        backs += back_lines(line);
        if (command.kind == Command::DECIDE) engine.take({Call::DECIDE, literal_number(command.number)});
        if (command.kind == Command::BACKTRACK) engine.take({Call::BACKTRACK, static_cast<uint32_t>(command.number)});
        compare_cost(engine, quoted, backs, number);
        between(engine);
    }
    return engine.total();
}

template <class Engine>
uint64_t follow_script(Engine& engine, const std::string& script, const Due& quoted) {
    return follow_script(engine, script, quoted, [](Engine&) {});
}

using Opening = std::function<uint64_t(const Numbers& book, Numbers& session)>;

inline uint64_t open_by_library(const Numbers& book, Numbers& session) {
    return tariff_open(book.data(), book.size(), session.data(), session.size());
}

// In the quoted numbers the opening is accepted, whatever it comes to; in one fewer it is refused by 10, and nothing is written. How many were compared.
inline long compare_openings(Random& random, const Numbers& book, const Due& quoted, const Opening& open) {
    Lent exact(random, quoted.length), few(random, quoted.length - 1);
    expect(tariff_kind(open(book, exact.numbers)) != TARIFF_REFUSED, "opening in the quoted length is refused");
    compare_number(open(book, few.numbers), c_refusal(10), "opening in numbers", few.numbers.size());
    compare_memory(few.numbers, few.before, "number of a refused opening");
    return 2;
}

// How near the checks of scripts came to their ceilings.
struct Nearest {
    long scripts = 0, reached = 0, reached_above_0 = 0;
    uint64_t total = 0, ceiling = 1;  // of the greatest share
    uint64_t gap = ~uint64_t{0};      // the smallest, of ceilings above 0

    void add(uint64_t cost, uint64_t quoted) {
        scripts++;
        if (cost == quoted) ++(quoted == 0 ? reached : reached_above_0);
        if (quoted == 0) return;
        gap = std::min(gap, quoted - cost);
        if (static_cast<double>(cost) / static_cast<double>(quoted) <= static_cast<double>(total) / static_cast<double>(ceiling)) return;
        total = cost;
        ceiling = quoted;
    }

    void print(const std::string& which) const {
        std::cout << "quote: " << scripts << " " << which << ", none over its ceiling; the nearest cost " << total << " of " << ceiling << " ("
                  << 100.0 * static_cast<double>(total) / static_cast<double>(ceiling) << " %), the smallest gap is " << gap
                  << "; the ceiling is reached " << reached_above_0 << " times above 0 and " << reached << " times at 0\n";
    }
};
