// Quotes by the library are K11's, and what is quoted holds: no script costs more on its book, by the C calls and by `desk`, and a session opens in just
// the quoted length. Wrong quotes, engines and openings must be noticed, and right ones that are made in other ways must not.
#include <cstddef>
#include <cstdint>
#include <filesystem>
#include <iostream>
#include <string>

#include "../support/bench.hpp"
#include "../support/shapes.hpp"
#include "compare.hpp"
#include "self_checks.hpp"
#include "worked.hpp"

namespace {

constexpr int CASES = 2400;

// Every third case is wide.
const shapes::Shape& shape_of(int number) {
    static const shapes::Shape wide{"wide", shapes::wide, 0};
    return number % 3 == 2 ? wide : shapes::of_case(number / 3 * 2 + number % 3);
}

struct Counted {
    Tally tally;
    Nearest nearest;
    long by_grep = 0;
};

// Of every third script grep counts the lines, too.
void run_case(Bench& bench, const std::filesystem::path& folder, int number, uint64_t seed, Counted& counted) {
    Random random(seed);
    const shapes::Shape& shape = shape_of(number);
    Generated made = generate(random, shape);
    bench.run(Case{shape.name, seed, made.text, made.script, 0}, [&](const std::string& output) {
        Cost cost = compare_script(random, made, output, counted.tally);
        if (number % 3 == 0) compare_grep(folder, made, cost.quoted), counted.by_grep++;
        compare_drawn(random, made, by_library, counted.tally);
        counted.nearest.add(cost.total, cost.quoted.ceiling);
    });
}

void run_worked(Bench& bench) {
    Nearest nearest;
    Tally tally;
    uint64_t number = 0;
    for (const Worked& worked : worked_values())
        bench.run(Case{"worked", ++number, dimacs(worked.written), worked.script, 0}, [&](const std::string& output) {
            Cost cost = compare_worked(worked, output, tally);
            nearest.add(cost.total, cost.quoted.ceiling);
        });
    nearest.print("worked scripts");
}

void run_many(Bench& bench) {
    bench.run(Case{"many", 0, "p cnf 1 0\n", "", 0}, [&](const std::string&) {
        size_t compared = compare_many(many_quotings({999999, 1000000, 1000001, 1000002, (1 << 20) + 1, (1 << 21) + 1}), by_library);
        std::cout << "quote: " << compared << " quotes for 999,999 to 1,000,002, 1,048,577 and 2,097,153 lines `b k`, the greatest ceiling is "
                  << product(check_ceiling(heaviest()), MAX_BACK_LINES) << "\n";
    });
}

int test(int argc, char** argv) {
    Bench bench(argc, argv, CASES);
    const std::filesystem::path folder = argv[2];
    Counted counted;
    run_worked(bench);
    bench.run_cases("quote", FIRST_SEED, [&](int number, uint64_t seed) { run_case(bench, folder, number, seed, counted); });
    if (bench.case_count() < CASES || bench.exit_code() != 0) return bench.exit_code();
    run_many(bench);
    check_wrong(folder);
    counted.nearest.print("scripts by desk and by the C calls");
    counted.tally.print();
    std::cout << "quote: " << counted.by_grep << " scripts counted by grep, too; " << static_cast<int>(bench.seconds() + 0.5) << " s\n";
    return bench.exit_code();
}

}  // namespace

int main(int argc, char** argv) {
    return guarded([&] { return test(argc, argv); });
}
