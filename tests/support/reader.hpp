// A plain reader of rule books, written from document 01 and K4: the formula of a text, or the number of its refusal.
#pragma once
#include <cstddef>
#include <cstdlib>
#include <optional>
#include <string>
#include <vector>

#include "formula.hpp"
#include "text.hpp"

struct Reading {
    int refusal = 0;
    Formula written;  // the clauses as they stand in the text
    Formula formula;  // the clauses as they are read
};

// A literal, or 0 at the end of a clause; `-0` is no number.
inline std::optional<int> clause_number(const std::string& word) {
    if (word[0] != '-') return unsigned_number(word);
    std::optional<int> variable = unsigned_number(word.substr(1));
    if (!variable || *variable == 0) return std::nullopt;
    return -*variable;
}

// Takes the words behind the header one by one; `refusal` is 0 until the first fault. Literals are counted as written.
class BodyReader {
public:
    BodyReader(int variables, int clauses) : clauses(clauses) { written.variables = variables; }

    void take(const std::string& word) {
        std::optional<int> number = clause_number(word);
        if (!number)
            refusal = 4;
        else if (*number == 0)
            close();
        else
            extend(*number);
    }

    void end() {
        if (clause_count(written) != clauses || !clause.empty()) refusal = 8;
    }

    int refusal = 0;
    Formula written;

private:
    void close() {
        if (clause.empty()) {
            refusal = 6;
            return;
        }
        written.clauses.push_back(clause);
        clause.clear();
    }

    // At one place the lowest number.
    void extend(int literal) {
        if (std::abs(literal) > written.variables)
            refusal = 5;
        else if (clause.size() == MAX_CLAUSE_LENGTH)
            refusal = 6;
        else if (clause_count(written) == clauses)
            refusal = 8;
        else if (literals == MAX_LITERALS)
            refusal = 9;
        if (refusal != 0) return;
        clause.push_back(literal);
        literals++;
    }

    int clauses;
    int literals = 0;
    Clause clause;
};

inline Reading refused(int number) { return Reading{number, {}, {}}; }

inline Reading read_formula(const std::string& text) {
    if (text.size() > MAX_TEXT) return refused(1);
    std::vector<std::string> lines;
    for (const std::string& line : lines_of(text))
        if (line[0] != 'c') lines.push_back(line);
    if (lines.empty() || lines[0][0] != 'p') return refused(2);
    std::vector<std::string> header = words_of(lines[0]);
    if (header.size() != 4 || header[0] != "p" || header[1] != "cnf") return refused(2);
    std::optional<int> variables = unsigned_number(header[2]), clauses = unsigned_number(header[3]);
    if (!variables || !clauses) return refused(2);
    if (*variables < 1 || *variables > MAX_VARIABLES || *clauses > MAX_CLAUSES) return refused(3);
    BodyReader body(*variables, *clauses);
    for (size_t i = 1; i < lines.size(); i++)
        for (const std::string& word : words_of(lines[i])) {
            body.take(word);
            if (body.refusal != 0) return refused(body.refusal);
        }
    body.end();
    return body.refusal != 0 ? refused(body.refusal) : Reading{0, body.written, as_read(body.written)};
}
