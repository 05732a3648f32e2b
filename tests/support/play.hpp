// Writes a script line by line, as somebody who sees the assignment after each line, and records that assignment.
#pragma once
#include <algorithm>
#include <cstddef>
#include <cstdlib>
#include <functional>
#include <memory>
#include <string>
#include <utility>
#include <vector>

#include "command.hpp"
#include "lines.hpp"
#include "random.hpp"

// What propagation must come to.
struct Assignment {
    bool conflict = false;
    std::vector<int> values;  // by variable: 1 true, -1 false, 0 open; of no meaning in a conflict
};

// The assignment that decisions come to.
using Oracle = std::function<Assignment(const std::vector<int>& decisions)>;

// Told, behind the opening and behind each line, the decisions in force and whether there is a conflict; how many of the first ones stay for good.
using Floor = std::function<int(int level, bool conflict)>;

struct Play {
    std::string script;
    std::vector<std::shared_ptr<const Assignment>> after;  // the opening, then each line
};

class Player {
public:
    // Of 100 decisions on an open variable, so many are positive.
    Player(Random& random, Oracle oracle, int positive = 50, Floor floor = [](int, bool) { return 0; })
        : random(random), oracle(std::move(oracle)), positive(positive), floor(std::move(floor)) {
        look();
        record();
    }

    // A style of play for so many lines; the last line may lack its byte 10.
    Play write(int lines) {
        static const std::vector<void (Player::*)(size_t)> styles = {
            &Player::wander, &Player::wander, &Player::climb, &Player::search, &Player::repeat,
        };
        auto style = random.pick(styles);
        while (play.after.size() <= static_cast<size_t>(lines)) (this->*style)(static_cast<size_t>(lines));
        if (random.chance(20) && play.script.size() >= 2 && play.script[play.script.size() - 2] != '\n') play.script.pop_back();
        return std::move(play);
    }

private:
    int variables() const { return static_cast<int>(now->values.size()) - 1; }
    int level() const { return static_cast<int>(decisions.size()); }
    int loose() const { return level() - staying; }

    void look() {
        now = std::make_shared<const Assignment>(oracle(decisions));
        open.clear();
        for (int variable = 1; !now->conflict && variable <= variables(); variable++)
            if (now->values[variable] == 0) open.push_back(variable);
    }

    void record() {
        play.after.push_back(now);
        staying = floor(level(), now->conflict);
    }

    // Puts a line down, with the assignment after it.
    void put(const std::string& line) {
        play.script += line + "\n";
        record();
    }

    void decide(int literal) {
        decisions.push_back(literal);
        look();
        put(script_number(random, literal));
    }

    void backtrack(int k) {
        decisions.resize(decisions.size() - static_cast<size_t>(k));
        look();
        put("b " + script_number(random, k));
    }

    int open_literal() {
        int variable = random.pick(open);
        return random.chance(positive) ? variable : -variable;
    }

    // A line that is refused.
    void stray() {
        int kind = random.below(4);
        if (kind == 0) put(malformed_line(random));
        if (kind == 1) put(script_number(random, random.sign(random.pick(std::vector<int>{0, variables() + 1, variables() + 2, 999999999}))));
        if (kind == 2) put("b " + script_number(random, random.pick(std::vector<int>{0, level() + 1, level() + 2, 999999999})));
        if (kind == 3) assigned();
    }

    // A decision on a variable that is assigned, or on any in a conflict.
    void assigned() {
        int variable = random.between(1, variables());
        for (int tries = 0; tries < 20 && !now->conflict && now->values[variable] == 0; tries++) variable = random.between(1, variables());
        if (now->conflict || now->values[variable] != 0) put(script_number(random, random.sign(variable)));
    }

    // One line of any kind.
    void wander(size_t) {
        int kind = random.below(100);
        if (kind < 15)
            stray();
        else if (kind < 70 && !open.empty())
            decide(open_literal());
        else if (loose() > 0)
            backtrack(kind % 3 == 0 ? random.between(1, loose()) : 1);
        else if (open.empty())
            stray();
    }

    // Decisions as long as one can be made, then most or all of them taken back at once.
    void climb(size_t lines) {
        while (!open.empty() && play.after.size() <= lines) decide(open_literal());
        if (random.chance(30)) stray();
        if (loose() > 0) backtrack(random.chance(50) ? loose() : random.between((loose() + 1) / 2, loose()));
    }

    // Chronological search: a decision that ends in conflict is taken back and turned round.
    void search(size_t) {
        if (!now->conflict && !open.empty()) {
            decide(open_literal());
        } else if (loose() > 0) {
            int last = decisions.back();
            backtrack(now->conflict ? 1 : random.between(1, loose()));
            if (now->values[std::abs(last)] == 0 && !now->conflict && positive > 0) decide(-last);
        } else {
            stray();
        }
    }

    // The same few decisions made and taken back again and again.
    void repeat(size_t lines) {
        std::vector<int> literals;
        for (int i = random.between(1, 4); i > 0 && !open.empty(); i--) literals.push_back(open_literal());
        if (literals.empty()) return loose() > 0 ? backtrack(loose()) : stray();
        for (int round = random.between(2, 30); round > 0 && play.after.size() <= lines; round--) {
            int below = level();
            for (int literal : literals)
                if (!now->conflict && now->values[std::abs(literal)] == 0) decide(literal);
            below = std::max(below, staying);
            if (level() > below) backtrack(level() - below);
        }
        if (!open.empty() && random.chance(50)) decide(open_literal());
    }

    Random& random;
    Oracle oracle;
    int positive;
    Floor floor;
    int staying = 0;  // so many decisions, the oldest ones, are not taken back
    std::vector<int> decisions;
    std::vector<int> open;  // the open variables; none in a conflict
    std::shared_ptr<const Assignment> now;
    Play play;
};
