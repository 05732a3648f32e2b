// How many of the things compared were of each kind; each kind has to be met often enough.
#pragma once
#include <functional>
#include <iostream>
#include <stdexcept>
#include <string>
#include <utility>
#include <vector>

template <class... Things>
struct Kind {
    std::string name;
    std::function<bool(const Things&...)> is_met;
    long calls = 0;
};

template <class... Things>
class Kinds {
public:
    explicit Kinds(std::vector<Kind<Things...>> kinds) : kinds(std::move(kinds)) {}

    void count(const Things&... things) {
        for (Kind<Things...>& kind : kinds)
            if (kind.is_met(things...)) kind.calls++;
    }

    // Throws where a kind was hardly met.
    void print(long enough) const {
        for (const Kind<Things...>& kind : kinds) {
            if (kind.calls < enough) throw std::runtime_error("hardly any calls: " + kind.name + ": " + std::to_string(kind.calls));
            std::cout << (&kind == &kinds.front() ? "" : ", ") << kind.name << ": " << kind.calls;
        }
    }

private:
    std::vector<Kind<Things...>> kinds;
};
