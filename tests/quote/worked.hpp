// Books and scripts whose quotes and costs were worked out by hand, and scripts of 999,999 to 2,097,153 lines `b k`.
#pragma once
#include <cstddef>
#include <cstdint>
#include <optional>
#include <string>
#include <vector>

#include "compare.hpp"

// A worked value: a book and a script, what is quoted for it, and what it costs.
struct Worked {
    Formula written;
    std::string script;
    uint64_t length, worst, backs, ceiling, cost;
};

inline Clause counted_up(int from, int to) {
    Clause clause;
    for (; from <= to; from++) clause.push_back(from);
    return clause;
}

// Decisions that make the literals of a clause false, in their order, but for the second.
inline std::string against(const Clause& clause) {
    std::string script;
    for (size_t i = 0; i < clause.size(); i++)
        if (i != 1) script += std::to_string(-clause[i]) + "\n";
    return script;
}

// The most literals there are, in 23 clauses of 255, each with a second literal of its own, and one of 135.
inline Formula heaviest() {
    Formula formula{MAX_VARIABLES, {}};
    for (int second = 255; second < 278; second++) {
        formula.clauses.push_back(counted_up(1, 254));
        formula.clauses.back().insert(formula.clauses.back().begin() + 1, second);
    }
    formula.clauses.push_back(counted_up(300, 434));
    return formula;
}

// The listing and the values of K11's page; then scripts that come within one check a rule of the ceiling.
inline std::vector<Worked> worked_values() {
    const std::string six_rounds = "-1\n-3\n-2\nb 3\n-2\n-4\n-1\nb 3\n-1\n-3\n-2\nb 3\n-4\n-2\n-1\nb 3\n-3\n-1\n-2\nb 3\n-2\n-1\n-3";
    return {
        {{4, {{1, 2, 3}, {-3, 4}, {-4, -2, 1}}}, "-1\n-2\nb 1\n-3\n1\nb 3\n", 43, 7, 2, 21, 4},
        {{1, {}}, "", 10, 0, 0, 0, 0},
        {{1, {{1, -1}}}, "b 0", 16, 0, 1, 0, 0},
        {{1, {{1}}}, "b 1\nb  1\nb 1\r\nb 1", 16, 0, 2, 0, 0},
        {{2, {{1, 2}}}, "-1\n", 21, 1, 0, 1, 0},
        {{3, {{1, 2, 3}}}, "-2\n-1\nb 2", 26, 3, 1, 6, 2},
        {{3, {{1, 2, 3}, {3, -3}, {2}, {1, 1, -2, 1}}}, "\nb 1\nb 1234567890\nb 000000000\n", 44, 4, 2, 12, 0},
        {{255, {counted_up(1, 255)}}, against(counted_up(1, 255)), 1286, 507, 0, 507, 506},
        {{4, {{1, 2, 3, 4}}}, six_rounds, 31, 5, 5, 30, 29},
        {heaviest(), against(heaviest().clauses.front()) + against(heaviest().clauses.back()), 2649, 11928, 0, 11928, 11904},
    };
}

inline Cost compare_worked(const Worked& worked, const std::string& output, Tally& tally) {
    Random random(0);
    Generated made{worked.written, as_read(worked.written), dimacs(worked.written), worked.script, 50};
    Cost cost = compare_script(random, made, output, tally);
    compare_number(cost.quoted.length, worked.length, "worked length of V", static_cast<size_t>(worked.written.variables));
    compare_number(cost.quoted.worst, worked.worst, "worked W of C", worked.written.clauses.size());
    compare_number(cost.quoted.backs, worked.backs, "worked lines of script bytes", worked.script.size());
    compare_number(cost.quoted.ceiling, worked.ceiling, "worked ceiling of C", worked.written.clauses.size());
    compare_number(cost.total, worked.cost, "worked cost of C", worked.written.clauses.size());
    return cost;
}

// So many lines `b k`, with others between them or not, and with or without the last byte 10.
inline std::string many_lines(Random& random, size_t count, bool mixed, bool closed) {
    static const std::vector<std::string> others = {"1\n", "\n", "b  1\n", "b 1\r\n", "-2\n", "b\n"};
    std::string script;
    for (; count > 0; count--) script += (mixed ? random.pick(others) : "") + (count % 4096 == 0 ? "b 000000000\n" : "b 1\n");
    if (!closed) script.pop_back();
    return script;
}

struct Quoting {
    Lending lent;
    std::optional<Formula> formula;
};

// What is lent for so many lines, on the heaviest book and on it damaged.
inline std::vector<Quoting> many_quotings(const std::vector<size_t>& counts) {
    Random random(0);
    Formula formula = heaviest();
    Library library(random, dimacs(formula));
    const Numbers& book = library.lent_book().numbers;
    std::vector<Quoting> list;
    for (size_t count : counts)
        for (bool mixed : {false, true}) {
            std::string script = many_lines(random, count, mixed, count % 2 == 0);
            Lending lent{{book, book.size()}, lend_script(random, script), {Lent(random, QUOTED + 2).numbers, QUOTED}, random.next()};
            list.push_back({lent, formula});
            lent.book.memory[0] = 0;
            list.push_back({lent, std::nullopt});
        }
    return list;
}

// How many were compared.
inline size_t compare_many(const std::vector<Quoting>& list, const Method& quote) {
    size_t compared = 0;
    for (const Quoting& quoting : list) {
        compare_quote(quoting.lent, quoting.formula, quote);
        compared++;
    }
    return compared;
}
