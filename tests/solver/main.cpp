// Compares what `desk` settles after every line of generated scripts with the unit closure that CaDiCaL fixes of the clauses as they are written.
#include <algorithm>
#include <cstddef>
#include <cstdint>
#include <cstdlib>
#include <iostream>
#include <memory>
#include <stdexcept>
#include <string>
#include <vector>

#include "../support/bench.hpp"
#include "../support/closure.hpp"
#include "../support/compare.hpp"
#include "../support/follow.hpp"
#include "../support/layout.hpp"
#include "../support/reader.hpp"
#include "../support/repeats.hpp"
#include "../support/shapes.hpp"
#include "../support/totals.hpp"

namespace {

constexpr uint64_t FIRST_SEED = 20260000;
constexpr int CASES = 2600;
constexpr int SELF_CHECKS = 1500;

// CaDiCaL propagates, and does nothing more: on small and middling formulas it must agree with the naive closure.
void check_cadical(int count) {
    for (int number = 0; number < count; number++) {
        Random random(FIRST_SEED + static_cast<uint64_t>(number));
        Formula formula = repeats::any(random, number % 2 == 0 ? shapes::tiny(random) : shapes::of_case(number).make(random));
        std::vector<int> decisions;
        for (int i = random.below(4); i > 0; i--) decisions.push_back(random.sign(random.between(1, formula.variables)));
        Assignment fixed = cadical_closure(formula, decisions), found = naive_closure(formula, decisions);
        bool agree = fixed.conflict == found.conflict && (fixed.conflict || fixed.values == found.values);
        if (!agree) throw std::runtime_error("CaDiCaL does not fix just the unit closure, self-check " + std::to_string(number));
    }
    std::cout << "solver: CaDiCaL " << CaDiCaL::Solver::version() << " fixes the naive unit closure in " << count << " self-checks"
              << std::endl;
}

// The conflict clause can be false at all, and the other clauses make every literal of it false, or contradict each other.
void check_conflict_clause(const Formula& written, const Session& session, int clause) {
    std::vector<int> opposites;
    for (int literal : written.clauses[clause - 1]) opposites.push_back(-literal);
    expect(!cadical_closure(Formula{written.variables, {}}, opposites).conflict, "the rule named is met by every setting");
    Assignment others = cadical_closure(written, session.decisions(), clause);
    if (others.conflict) return;
    for (int literal : written.clauses[clause - 1])
        expect(others.values[std::abs(literal)] == (literal > 0 ? -1 : 1), "the rule named is not all false");
}

void judge(const Formula& written, const Case& example, const Play& play, const std::string& output, Totals& totals) {
    Formula formula = as_read(written);
    follow(formula, example.script, output, [&](size_t i, const Session& session, const Answer& answer) {
        compare(session, *play.after.at(i));
        if (answer.kind == Answer::CONFLICT) check_conflict_clause(written, session, answer.clause);
        totals.add(session, answer);
    });
}

// Large formulas get fewer lines. Some scripts have ten times as many, above all where there are few clauses and so many decisions.
int line_count(Random& random, const Formula& formula) {
    int lines = random.between(5, 20 + 60000 / (400 + literal_count(formula) + 2 * formula.variables));
    bool sparse = clause_count(formula) < formula.variables / 2;
    return random.chance(sparse ? 40 : 10) ? 10 * lines : lines;
}

void run_case(Bench& bench, int number, uint64_t seed, Totals& totals) {
    const shapes::Shape& shape = shapes::of_case(number);
    Random random(seed);
    Formula written = repeats::any(random, shape.make(random));
    std::string book = random.chance(60) ? Layout(random).print(written) : dimacs(written);
    Reading reading = read_formula(book);
    if (reading.refusal != 0 || reading.written.clauses != written.clauses)
        throw std::runtime_error("a layout is wrong, seed " + std::to_string(seed));
    Player player(random, [&](const std::vector<int>& decisions) { return cadical_closure(written, decisions); });
    Play play = player.write(line_count(random, written));
    Case example{shape.name, seed, book, play.script, random.chance(20) ? static_cast<size_t>(random.between(1, 50)) : 0};
    totals.add(written);
    bench.run(example, [&](const std::string& output) { judge(written, example, play, output, totals); });
}

// 1,000,000 backtracks are taken, the next is refused by 17.
void run_million(Bench& bench) {
    Totals totals;
    Formula formula{3, {{-2, 3}}};
    Case example{"million", 0, dimacs(formula), "1\n", 0};
    auto opened = std::make_shared<const Assignment>(cadical_closure(formula, {}));
    auto lower = std::make_shared<const Assignment>(cadical_closure(formula, {1}));
    auto upper = std::make_shared<const Assignment>(cadical_closure(formula, {1, 2}));
    Play play{"", {opened, lower}};
    for (uint64_t i = 0; i <= MAX_BACKTRACKS; i++) {
        example.script += "2\nb 1\n";
        play.after.push_back(upper);
        play.after.push_back(i < MAX_BACKTRACKS ? lower : upper);
    }
    example.script += "b 2\nb 0\nb 3\n";
    play.after.insert(play.after.end(), 3, upper);
    bench.run(example, [&](const std::string& output) { judge(formula, example, play, output, totals); });
    std::cout << "solver: a script of " << totals.answers - 1 << " lines, of which " << totals.backtracks << " take-backs were taken\n";
}

int test(int argc, char** argv) {
    Bench bench(argc, argv, CASES);
    check_cadical(std::min(bench.case_count(), SELF_CHECKS));
    Totals totals;
    bench.run_cases("solver", FIRST_SEED, [&](int number, uint64_t seed) { run_case(bench, number, seed, totals); });
    if (bench.case_count() == CASES) run_million(bench);
    totals.print("solver", bench.seconds());
    return bench.exit_code();
}

}  // namespace

int main(int argc, char** argv) {
    return guarded([&] { return test(argc, argv); });
}
