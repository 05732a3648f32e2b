// How many quotes of each kind were compared, and how many openings and fixings.
#pragma once
#include <algorithm>
#include <cstddef>
#include <cstdint>
#include <iostream>
#include <stdexcept>
#include <string>
#include <vector>

#include "../support/kinds.hpp"
#include "../support/text.hpp"
#include "due.hpp"

class Tally {
public:
    void add(const Lending& lent, const Due& due) {
        calls++;
        quoted.count(lent, due);
        backs += due.backs;
    }

    // Throws where something was hardly met.
    void print() const {
        if (openings < ENOUGH || fixings < ENOUGH) throw std::runtime_error("hardly any openings or fixings");
        std::cout << "quote: " << openings << " openings compared, and the checks behind " << fixings << " fixings between lines\n";
        std::cout << "quote: " << calls << " quotes compared, with " << backs << " lines `b k`; ";
        quoted.print(ENOUGH);
        std::cout << "\n";
    }

    long openings = 0, fixings = 0;

private:
    static constexpr long ENOUGH = 100;
    using Kind = ::Kind<Lending, Due>;

    template <class Condition>
    static Kind is_quoted(const std::string& name, Condition condition) {
        return {name, [condition](const Lending& lent, const Due& due) { return !due.refused() && condition(lent, due); }};
    }

    // Quotes for scripts that have a line of this kind.
    template <class Condition>
    static Kind has_line(const std::string& name, Condition condition) {
        return is_quoted(name, [condition](const Lending& lent, const Due&) {
            std::vector<std::string> lines = lines_of(lent.lines());
            return std::any_of(lines.begin(), lines.end(), condition);
        });
    }

    static bool ends_open(const Lending& lent, const Due&) {
        std::string script = lent.lines();
        return back_lines(script) > back_lines(script.substr(0, script.rfind('\n') + 1));
    }

    static std::vector<Kind> kinds() {
        using Text = std::string;
        return {
            is_quoted("with 0 places", [](const Lending& lent, const Due&) { return lent.out.length == 0; }),
            is_quoted("2 places", [](const Lending& lent, const Due&) { return lent.out.length == 2; }),
            is_quoted("3 places", [](const Lending& lent, const Due&) { return lent.out.length == 3; }),
            is_quoted("5 places", [](const Lending& lent, const Due&) { return lent.out.length == 5; }),
            is_quoted("over 7,504 book numbers", [](const Lending& lent, const Due&) { return lent.book.length > TARIFF_BOOK; }),
            is_quoted("an empty script", [](const Lending& lent, const Due&) { return lent.script.length == 0; }),
            is_quoted("b 0", [](const Lending&, const Due& due) { return due.backs == 0; }),
            is_quoted("b over 50", [](const Lending&, const Due& due) { return due.backs > 50; }),
            is_quoted("W 0", [](const Lending&, const Due& due) { return due.worst == 0; }),
            is_quoted("W over 5,000", [](const Lending&, const Due& due) { return due.worst > 5000; }),
            is_quoted("a last `b k` without its end", ends_open),
            has_line("a line `b 0`", [](const Text& line) { return line == "b 0"; }),
            has_line("nine digits", [](const Text& line) { return line.size() == 11 && back_lines(line) == 1; }),
            has_line("a line `b ..` that does not count", [](const Text& line) { return line.substr(0, 2) == "b " && back_lines(line) == 0; }),
            has_line("an empty line", [](const Text& line) { return line.empty(); }),
            has_line("byte 0", [](const Text& line) { return line.find('\0') != Text::npos; }),
            has_line("over 255 bytes", [](const Text& line) { return line.size() > 255; }),
            has_line("253 to 267 bytes", [](const Text& line) { return line.size() >= 253 && line.size() <= 267; }),
            has_line("over 9,999 bytes", [](const Text& line) { return line.size() > 9999; }),
            has_line("65,533 to 65,547 bytes", [](const Text& line) { return line.size() >= 65533 && line.size() <= 65547; }),
            {"refused by 11", [](const Lending&, const Due& due) { return due.answer == c_refusal(11); }},
        };
    }

    long calls = 0;
    uint64_t backs = 0;
    Kinds<Lending, Due> quoted{kinds()};
};
