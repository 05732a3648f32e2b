// Gives `desk` damaged and random bytes as rule book and script, and checks every line that it prints.
#include <algorithm>
#include <cstddef>
#include <cstdint>
#include <iostream>
#include <string>
#include <vector>

#include "../support/bench.hpp"
#include "../support/follow.hpp"
#include "../support/layout.hpp"
#include "../support/lines.hpp"
#include "../support/reader.hpp"
#include "../support/repeats.hpp"
#include "../support/shapes.hpp"
#include "damage.hpp"
#include "edges.hpp"

namespace {

constexpr uint64_t FIRST_SEED = 40010000;
constexpr int CASES = 6000;

struct Totals {
    long cases = 0, accepted = 0, answers = 0, refused[10] = {};
    size_t longest_book = 0, longest_line = 0;
    repeats::Tally repeated;

    void add(const Case& example, const Reading& reading) {
        cases++;
        refused[reading.refusal]++;
        longest_book = std::max(longest_book, example.book ? example.book->size() : 0);
        if (reading.refusal != 0) return;
        accepted++;
        repeated.add(reading.written);
        for (const std::string& line : lines_of(example.script)) answers++, longest_line = std::max(longest_line, line.size());
    }

    void print(double seconds) const {
        repeated.print("bytes");
        std::cout << "bytes: " << cases << " cases: " << accepted << " books read, with " << answers << " script lines; refused";
        for (int number = 1; number <= 9; number++) std::cout << " " << number << ": " << refused[number] << (number < 9 ? "," : "");
        std::cout << "; books up to " << longest_book << " bytes, script lines up to " << longest_line << "; "
                  << static_cast<int>(seconds + 0.5) << " s\n";
    }
};

Formula small_formula(Random& random) {
    return repeats::any(random, random.chance(70) ? shapes::tiny(random) : shapes::of_case(random.below(100)).make(random));
}

// A line that is in form, or nearly so.
std::string script_line(Random& random) {
    int kind = random.below(100), limit = random.pick(std::vector<int>{4, 9, 501});
    if (kind < 60) return script_number(random, random.sign(random.below(limit)));
    if (kind < 80) return "b " + script_number(random, random.below(random.chance(80) ? 3 : 40));
    if (kind < 95) return malformed_line(random);
    return random_bytes(random, random.below(20), 80);
}

// A line of about 100,000 bytes.
std::string long_line(Random& random) {
    size_t length = static_cast<size_t>(random.between(99990, 100010));
    if (random.chance(30)) return random_bytes(random, static_cast<int>(length), 0);
    std::string start = random.pick(std::vector<std::string>{"", "1", "b 1", "-"});
    return start + std::string(length, random.pick(std::vector<char>{'0', '1', ' ', '\0', 'b'}));
}

std::string random_script(Random& random) {
    if (random.chance(10)) return random_bytes(random, random.below(400), random.below(101));
    std::string script;
    for (int lines = random.below(40); lines > 0; lines--) script += script_line(random) + "\n";
    if (random.chance(2)) script += long_line(random) + "\n" + script;
    if (random.chance(30)) damage(random, script);
    if (random.chance(30) && !script.empty() && script.back() == '\n') script.pop_back();
    return script;
}

Case random_case(Random& random, int number) {
    Case example;
    if (number % 100 == 0) {
        example.shape = "absent";
    } else if (number % 10 == 1) {
        example.shape = "random";
        example.book = random_bytes(random, random.below(random.chance(80) ? 200 : 70000), random.below(101));
        if (random.chance(70)) example.book = "p cnf 9 9\n" + *example.book;
    } else if (number % 10 <= 4) {
        example.shape = "edge";
        example.book = edges::any(random);
        if (random.chance(10)) damage(random, *example.book);
    } else {
        example.shape = "damaged";
        Formula formula = small_formula(random);
        example.book = random.chance(60) ? Layout(random).print(formula) : dimacs(formula);
        if (random.chance(60)) damage(random, *example.book);
    }
    example.script = random_script(random);
    if (random.chance(15))
        example.piece = static_cast<size_t>(example.script.size() < 5000 ? random.between(1, 30) : random.between(500, 9000));
    return example;
}

// A refused book has its one line; any other an opening, an answer to each line, and the end.
void judge(const Case& example, const Reading& reading, const std::string& output) {
    if (reading.refusal != 0) {
        std::string line = "refused " + std::to_string(reading.refusal) + "\n";
        expect(output == line, "must print just `refused " + std::to_string(reading.refusal) + "`, printed " + output.substr(0, 100));
    } else {
        follow(reading.formula, example.script, output, [](size_t, const Session&, const Answer&) {});
    }
}

void run_case(Bench& bench, int number, uint64_t seed, Totals& totals) {
    Random random(seed);
    Case example = random_case(random, number);
    example.seed = seed;
    Reading reading = read_formula(example.book.value_or(""));
    totals.add(example, reading);
    bench.run(example, [&](const std::string& output) { judge(example, reading, output); });
}

int test(int argc, char** argv) {
    Bench bench(argc, argv, CASES);
    Totals totals;
    bench.run_cases("bytes", FIRST_SEED, [&](int number, uint64_t seed) { run_case(bench, number, seed, totals); });
    totals.print(bench.seconds());
    return bench.exit_code();
}

}  // namespace

int main(int argc, char** argv) {
    return guarded([&] { return test(argc, argv); });
}
