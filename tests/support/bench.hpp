// The frame of a test program: `PROGRAM DESK FOLDER [CASES]` runs the first cases, or all, and ends with 1 where one fails.
#pragma once
#include <chrono>
#include <cstdint>
#include <cstdlib>
#include <exception>
#include <filesystem>
#include <iostream>
#include <string>

#include "desk.hpp"
#include "session.hpp"

class Bench {
public:
    Bench(int argc, char** argv, int all_cases)
        : desk(argument(argc, argv, 1), argument(argc, argv, 2)), cases(argc > 3 ? std::atoi(argv[3]) : all_cases) {}

    int case_count() const { return cases; }

    // Calls `run_case(number, seed)` for each case, until three have failed, and prints the seeds.
    template <class RunCase>
    void run_cases(const std::string& test, uint64_t first_seed, RunCase run_case) {
        int number = 0;
        for (; number < cases && failures < 3; number++) run_case(number, first_seed + static_cast<uint64_t>(number));
        std::cout << test << ": seeds " << first_seed << " to " << first_seed + static_cast<uint64_t>(number) - 1 << std::endl;
    }

    // Runs `desk` and hands what it printed to `judge`, which throws a Disagreement; the case is then kept.
    template <class Judge>
    void run(const Case& example, Judge judge) {
        try {
            judge(desk.run(example));
        } catch (const Disagreement& disagreement) {
            failures++;
            std::filesystem::path folder = desk.keep(example);
            std::cout << "FAILED " << example.shape << " seed " << example.seed << ": " << disagreement.what() << "\n"
                      << "  run again: cd " << folder.string() << " && desk < script\n";
        }
    }

    int exit_code() const { return failures == 0 ? 0 : 1; }

    double seconds() const { return std::chrono::duration<double>(std::chrono::steady_clock::now() - start).count(); }

private:
    static std::string argument(int argc, char** argv, int i) {
        if (i < argc) return argv[i];
        std::cerr << "usage: " << argv[0] << " DESK FOLDER [CASES]\n";
        std::exit(2);
    }

    Desk desk;
    int cases;
    int failures = 0;
    std::chrono::steady_clock::time_point start = std::chrono::steady_clock::now();
};

// A fault of the test itself, not of `desk`, ends the program with 2.
template <class Body>
int guarded(Body body) {
    try {
        return body();
    } catch (const std::exception& fault) {
        std::cerr << "the test cannot go on: " << fault.what() << "\n";
        return 2;
    }
}
