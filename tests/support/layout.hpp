// The text of a rule book in any layout that document 01 allows: comments, odd blanks, leading zeros, clauses over lines.
#pragma once
#include <string>

#include "decimal.hpp"
#include "formula.hpp"
#include "random.hpp"

class Layout {
public:
    explicit Layout(Random& random)
        : random(random), breaks(random.between(0, 30)), comments(random.between(0, 10)), zeros(random.between(0, 30)),
          blanks(random.between(0, 40)) {}

    // The plain text where the odd one is over the limit.
    std::string print(const Formula& formula) {
        text.clear();
        remark();
        text += "p";
        blank();
        text += "cnf";
        blank();
        number(formula.variables);
        blank();
        number(clause_count(formula));
        if (random.chance(blanks)) blank();
        text += "\n";
        for (const Clause& clause : formula.clauses) print(clause);
        if (random.chance(30)) text.erase(text.find_last_not_of(" \t\r\n") + 1);
        if (random.chance(comments)) text += "\nc the last line, without its end";
        return text.size() <= MAX_TEXT ? text : dimacs(formula);
    }

private:
    void print(const Clause& clause) {
        for (int literal : clause) {
            number(literal);
            gap();
        }
        number(0);
        random.chance(80) ? line_end() : gap();
    }

    void number(int value) { text += decimal(random, value, zeros); }

    // Blanks that do not end the line.
    void blank() {
        do text += random.chance(blanks) ? (random.chance(50) ? '\t' : '\r') : ' ';
        while (random.chance(blanks));
    }

    void gap() { random.chance(breaks) ? line_end() : blank(); }

    void line_end() {
        if (random.chance(blanks)) blank();
        text += "\n";
        while (random.chance(breaks / 4)) text += "\n";
        remark();
        if (random.chance(blanks)) blank();
    }

    // A line that is skipped, whatever stands in it.
    void remark() {
        while (random.chance(comments)) {
            text += "c";
            for (int i = random.between(0, 12); i > 0; i--) text += " p cnf 1 -2 0 \t\r\x01\xff\0"[random.below(19)];
            text += "\n";
        }
    }

    Random& random;
    int breaks, comments, zeros, blanks;  // of 100
    std::string text;
};
