// A book and a script, the quotes for it, and what it costs, by the C calls and by `desk`.
#pragma once
#include <cstdint>
#include <filesystem>
#include <optional>
#include <string>
#include <vector>

#include "../support/desk.hpp"
#include "../support/layout.hpp"
#include "../support/repeats.hpp"
#include "claim.hpp"
#include "draw.hpp"
#include "scripts.hpp"
#include "tally.hpp"

struct Generated {
    Formula written, formula;  // as it stands in the book, and as it is read
    std::string text, script;
    int positive = 50;
};

// Large formulas get fewer lines.
inline int line_count(Random& random, const Formula& formula) { return random.between(0, 20 + 60000 / (1000 + literal_count(formula))); }

inline Generated generate(Random& random, const shapes::Shape& shape) {
    Generated made;
    made.positive = shape.make == shapes::wide ? random.between(0, 40) : 50;
    made.written = repeats::any(random, shape.make(random));
    made.formula = as_read(made.written);
    made.text = random.chance(30) ? Layout(random).print(made.written) : dimacs(made.written);
    made.script = any_script(random, made.written.variables, line_count(random, made.written), made.positive);
    return made;
}

// Quotes for a book, each for another script, now and then with the book damaged.
inline void compare_drawn(Random& random, const Generated& made, const Method& quote, Tally& tally) {
    Library library(random, made.text);
    for (int quotes = 6; quotes > 0; quotes--) {
        std::string script = any_script(random, made.written.variables, random.between(0, random.chance(10) ? 200 : 40), 50);
        Draw draw(random, library, made.formula, script);
        tally.add(draw.lent, compare_quote(draw.lent, draw.formula, quote));
    }
}

// The quote for this script on the undamaged book.
inline Due compare_plain(Random& random, const Generated& made, const Numbers& book) {
    Lending lent{{book, book.size()}, lend_script(random, made.script), {Numbers(QUOTED), QUOTED}, 0};
    return compare_quote(lent, made.formula, by_library);
}

// A fixing of any of the first decisions, now and then, which costs nothing. How many were accepted.
template <class Engine>
long fix_some(Random& random, Engine& engine) {
    if (!random.chance(15)) return 0;
    uint64_t before = engine.total();
    uint32_t number = static_cast<uint32_t>(random.below(4));
    uint64_t answer = engine.take({Call::FIX, number});
    compare_number(engine.total(), before, "checks behind a fixing of", number);
    return tariff_kind(answer) == TARIFF_ACCEPTED ? 1 : 0;
}

// The checks that the script costs by the C calls; once more with fixings between the lines, where fewer take-backs are accepted.
inline uint64_t compare_claim(Random& random, const Generated& made, const Due& quoted, Tally& tally) {
    Library library(random, made.text), fixing(random, made.text);
    follow_script(fixing, made.script, quoted, [&](Library& now) { tally.fixings += fix_some(random, now); });
    return follow_script(library, made.script, quoted);
}

// What `desk` says at the end of the same script.
inline void compare_desk(const std::string& output, uint64_t total, const Due& quoted) {
    std::vector<std::string> told = lines_of(output);
    std::optional<Answer> end = told.empty() ? std::nullopt : parse_answer(told.back());
    expect(end && end->kind == Answer::END, "end of desk is missing");
    expect(end->checks <= quoted.ceiling, "checks of desk over the ceiling: " + std::to_string(end->checks));
    compare_number(end->checks, total, "checks of desk with a ceiling of", quoted.ceiling);
    expect(end->backtracks <= quoted.backs, "take-backs of desk are more than the lines");
}

struct Cost {
    Due quoted;
    uint64_t total = 0;
};

// The quote for the script, the claim of it, and what `desk` printed.
inline Cost compare_script(Random& random, const Generated& made, const std::string& output, Tally& tally) {
    Library library(random, made.text);
    const Numbers& book = library.lent_book().numbers;
    Due quoted = compare_plain(random, made, book);
    uint64_t total = compare_claim(random, made, quoted, tally);
    compare_desk(output, total, quoted);
    tally.openings += compare_openings(random, book, quoted, open_by_library);
    return {quoted, total};
}

// Grep counts the lines of the script, too.
inline void compare_grep(const std::filesystem::path& folder, const Generated& made, const Due& quoted) {
    write_file(folder / "script", made.script);
    compare_number(back_lines_by_grep(folder / "script"), quoted.backs, "lines by grep, of script bytes", made.script.size());
}
