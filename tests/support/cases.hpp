// Cases of all shapes on fixed seeds, for a test by the library. A case is `run(seed, shape)`, which throws a Disagreement where it fails.
#pragma once
#include <cstdint>
#include <iostream>
#include <string>
#include <utility>

#include "session.hpp"
#include "shapes.hpp"

class Cases {
public:
    Cases(std::string test, uint64_t first_seed) : test(std::move(test)), first_seed(first_seed) {}

    // So many cases, until three have failed; how many have. The seeds are printed.
    template <class RunCase>
    int failures(int count, RunCase run) const {
        int failed = 0, number = 0;
        for (; number < count && failed < 3; number++) {
            std::string wrong = disagreement(number, run);
            if (wrong.empty()) continue;
            failed++;
            std::cout << "FAILED " << wrong << "\n";
        }
        std::cout << test << ": seeds " << first_seed << " to " << first_seed + static_cast<uint64_t>(number) - 1 << std::endl;
        return failed;
    }

    struct Trial {
        int noticed = 0, tried = 0;
    };

    // The first cases, so many at the most, until enough have failed.
    template <class RunCase>
    Trial trial(int count, int enough, RunCase run) const {
        Trial trial;
        for (; trial.tried < count && trial.noticed < enough; trial.tried++)
            if (!disagreement(trial.tried, run).empty()) trial.noticed++;
        return trial;
    }

private:
    // What is wrong of a case, or nothing.
    template <class RunCase>
    std::string disagreement(int number, RunCase run) const {
        uint64_t seed = first_seed + static_cast<uint64_t>(number);
        const shapes::Shape& shape = shapes::of_case(number);
        try {
            run(seed, shape);
            return "";
        } catch (const Disagreement& disagreement) {
            return shape.name + " seed " + std::to_string(seed) + ": " + disagreement.what();
        }
    }

    std::string test;
    uint64_t first_seed;
};
