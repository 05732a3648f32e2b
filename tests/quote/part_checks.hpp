// Wrong worked values, outputs of `desk`, formulas, costs, openings and counts, each of which one check must notice by its name.
#pragma once
#include <cstddef>
#include <cstdint>
#include <filesystem>
#include <functional>
#include <iostream>
#include <stdexcept>
#include <string>
#include <utility>
#include <vector>

#include "compare.hpp"
#include "worked.hpp"

namespace parts {

struct Wrong {
    std::string part;  // how the disagreement begins
    std::function<void()> compare;
};

// The right one must not disagree.
inline void check(const std::string& what, const std::vector<Wrong>& list, const std::function<void()>& right) {
    for (const Wrong& wrong : list)
        if (!disagrees(wrong.part, wrong.compare)) throw std::runtime_error("not noticed in wrong " + what + ": " + wrong.part);
    if (disagrees("", right)) throw std::runtime_error("noticed: right " + what);
    std::cout << "quote: wrong " << what << " noticed: " << list.size() << "\n";
}

inline std::string end_line(uint64_t backs, uint64_t checks) {
    Answer end;
    end.kind = Answer::END;
    end.backtracks = backs;
    end.checks = checks;
    return print(end) + "\n";
}

// Each number of a worked value raised by one.
inline void check_worked() {
    static const std::vector<std::pair<std::string, uint64_t Worked::*>> numbers{{"worked length", &Worked::length},
                                                                                 {"worked W", &Worked::worst},
                                                                                 {"worked lines", &Worked::backs},
                                                                                 {"worked ceiling", &Worked::ceiling},
                                                                                 {"worked cost", &Worked::cost}};
    const Worked right = worked_values().front();
    auto compare = [&right](const Worked& worked) {
        Tally tally;
        compare_worked(worked, end_line(0, right.cost), tally);
    };
    std::vector<Wrong> list;
    for (const auto& number : numbers) {
        Worked wrong = right;
        (wrong.*number.second)++;
        list.push_back({number.first, [=] { compare(wrong); }});
    }
    check("worked values", list, [&] { compare(right); });
}

// W is 7, for one line `b k`.
inline Due small_quote() {
    Due quoted;
    quoted.worst = 7;
    quoted.backs = 1;
    quoted.ceiling = product(quoted.worst, quoted.backs);
    return quoted;
}

// Of a script that costs nothing by the C calls.
inline void check_desk() {
    const Due quoted = small_quote();
    auto printed = [&](const std::string& output) { return [=] { compare_desk(output, 0, quoted); }; };
    check("outputs of desk",
          {{"end of desk", printed("")},
           {"end of desk", printed("open forced 0:\n")},
           {"checks of desk over the ceiling", printed(end_line(0, quoted.ceiling + 1))},
           {"checks of desk with a ceiling", printed(end_line(0, 1))},
           {"take-backs of desk", printed(end_line(quoted.backs + 1, 0))}},
          printed(end_line(quoted.backs, 0)));
}

// Another V, a rule fewer, a literal turned, and a right book that is said to be refused.
inline void check_formulas() {
    Random random(0);
    const Formula right = worked_values().front().written;
    Formula wider = right, shorter = right, turned = right;
    wider.variables++;
    shorter.clauses.pop_back();
    turned.clauses.back().back() *= -1;
    Library library(random, dimacs(right));
    const Numbers& book = library.lent_book().numbers;
    auto drawn = [&](const Formula& read) { return [&, read] { Draw(random, library, read, ""); }; };
    check("formulas",
          {{"formula of the book", drawn(wider)},
           {"formula of the book", drawn(shorter)},
           {"formula of the book", drawn(turned)},
           {"formula of a damaged book", [&] { formula_of_damaged({book, book.size()}, 11); }}},
          drawn(right));
}

// An engine that costs checks at its opening and none after.
struct OpeningCost {
    uint64_t checks;

    void open() {}
    uint64_t take(const Call&) { return 0; }
    uint64_t total() const { return checks; }
};

// A take-back comes at once, and with it the ceiling is W more.
inline void check_opening_cost() {
    const Due quoted = small_quote();
    auto costs = [&](uint64_t checks) {
        return [=] {
            OpeningCost engine{checks};
            follow_script(engine, "b 1\n", quoted);
        };
    };
    check("costs of an opening", {{"checks over the ceiling of the lines so far behind line 0", costs(quoted.worst + 1)}}, costs(quoted.worst));
}

// Openings that refuse the quoted length, accept one number fewer, refuse it by another number, or write there.
inline void check_openings() {
    Random random(0);
    Formula formula = worked_values().front().written;
    Generated made{formula, formula, dimacs(formula), "", 50};
    Library library(random, made.text);
    const Numbers& book = library.lent_book().numbers;
    Due quoted = compare_plain(random, made, book);
    auto opened = [&](const Opening& open) { return [&, open] { compare_openings(random, book, quoted, open); }; };
    auto by_another = [](const Numbers& from, Numbers& session) {
        uint64_t answer = open_by_library(from, session);
        return answer == c_refusal(10) ? c_refusal(12) : answer;
    };
    auto writing = [&](const Numbers& from, Numbers& session) {
        uint64_t answer = open_by_library(from, session);
        if (session.size() < quoted.length) session[0]++;
        return answer;
    };
    check("openings",
          {{"opening in the quoted length", opened([](const Numbers&, Numbers&) { return c_refusal(10); })},
           {"opening in numbers", opened([](const Numbers&, Numbers&) { return 0; })},
           {"opening in numbers", opened(by_another)},
           {"number of a refused opening", opened(writing)}},
          opened(open_by_library));
}

// The machine and grep count alike, and a count that is one off is noticed.
inline void check_grep(const std::filesystem::path& folder) {
    Generated made;
    made.script = "b 1\n";
    auto counted = [&](uint64_t backs) {
        return [&, backs] {
            Due due;
            due.backs = backs;
            compare_grep(folder, made, due);
        };
    };
    check("counts of lines", {{"lines by grep", counted(2)}}, counted(1));
}

inline void check_all(const std::filesystem::path& folder) {
    check_worked();
    check_desk();
    check_formulas();
    check_opening_cost();
    check_openings();
    check_grep(folder);
}

}  // namespace parts
