// Compares every line of `desk`, and by the library every number of a session after every call and its lookups, with a second run written from
// documents 01 and 02.
#include <algorithm>
#include <cstddef>
#include <cstdint>
#include <iostream>
#include <stdexcept>
#include <string>
#include <utility>
#include <vector>

#include "../support/bench.hpp"
#include "../support/layout.hpp"
#include "../support/play.hpp"
#include "../support/repeats.hpp"
#include "../support/shapes.hpp"
#include "../support/totals.hpp"
#include "calls.hpp"
#include "fixings.hpp"
#include "wrong.hpp"

namespace {

constexpr uint64_t FIRST_SEED = 50030000;
constexpr int CASES = 4000;
constexpr int SELF_CHECKS = 120;
constexpr int ENOUGH = 5;

Formula listing_formula() { return {4, {{1, 2, 3}, {-3, 4}, {-4, -2, 1}}}; }

// The run prints the listing of document 01, and its rules have the checks of the marked points.
void check_listing() {
    Formula formula = listing_formula();
    Run run(formula);
    std::vector<std::string> printed = expected_lines(run, "-1\n-2\nb 1\n-3\n1\nb 3\n", [](const Run&, const Answer&) {});
    std::vector<std::string> listing{
        "open forced 0:", "choose -1 forced 0:", "choose -2 forced 2: 3 4", "back 1", "choose -3 forced 2: 2 -4", "refused 15", "refused 16",
        "end choices 2 backs 1 checks 4",
    };
    if (printed != listing) throw std::runtime_error("the second run does not print document 01's listing");
    if (run.clauses[0].checks != 3 || run.clauses[1].checks != 0 || run.clauses[2].checks != 1)
        throw std::runtime_error("the second run does not count the checks of document 01's listing");
}

// After the first two lines of the listing the run looks up what document 01's level is there: 1 barred at 1, 2 barred, 3 and 4 wanted at 2.
void check_lookups() {
    Formula formula = listing_formula();
    Run run(formula);
    run.open();
    for (int literal : {-1, -2}) run.decide(literal_number(literal));
    Lookups answers = lookups_of(run);
    if (Lookups(answers.begin() + 1, answers.begin() + 5) != Lookups{6, 10, 9, 9}) throw std::runtime_error("the second run counts other levels");
}

// Clauses are read as K4 says of its examples and of the point `1 1 0`.
void check_reading() {
    Formula written{5, {{3, 3, -5}, {3, -3}, {3, 3, -3}, {1, 1}, {4, 2, 4, -1, 2}, {2, 5, -2}}};
    std::vector<Clause> read{{3, -5}, {}, {}, {1}, {4, 2, -1}, {}};
    if (as_read(written).clauses != read) throw std::runtime_error("clauses are not read as K4 says");
}

// The assignment that a run comes to when it is led from its own decisions to others.
Assignment led_to(Run& run, const std::vector<int>& decisions) {
    size_t common = 0;
    while (common < std::min(run.starts.size(), decisions.size()) && run.trail[run.starts[common]] == decisions[common]) common++;
    if (common < run.starts.size()) run.backtrack(static_cast<uint32_t>(run.starts.size() - common));
    for (; common < decisions.size(); common++) run.decide(literal_number(decisions[common]));
    Assignment assignment{run.conflict != 0, std::vector<int>(run.formula.variables + 1, 0)};
    for (int variable = 1; variable <= run.formula.variables; variable++) assignment.values[variable] = run.value(variable);
    return assignment;
}

// Large formulas get fewer lines.
int line_count(Random& random, const Formula& formula) {
    int lines = random.between(4, 40 + 120000 / (1000 + literal_count(formula)));
    return random.chance(10) ? 4 * lines : lines;
}

// The call of a line; a malformed one becomes a call with a number that no line can ask for, or any other.
Call call_of(Random& random, const Formula& formula, const std::string& line) {
    Command command = parse_command(line);
    if (command.kind == Command::BACKTRACK) return {Call::BACKTRACK, static_cast<uint32_t>(command.number)};
    if (command.kind == Command::DECIDE) return {Call::DECIDE, literal_number(command.number)};
    uint32_t last = 2 * static_cast<uint32_t>(formula.variables) + 1, any = static_cast<uint32_t>(random.next());
    Call::Kind kind = random.pick(std::vector<Call::Kind>{Call::DECIDE, Call::BACKTRACK});
    return {kind, random.pick(std::vector<uint32_t>{0, 1, last + 1, last + 2, 0x80000000u, 0xffffffffu, any})};
}

// The calls of a script, with those behind the opening and behind each line.
std::vector<Call> calls_of(Random& random, const Formula& formula, const std::string& script, const std::vector<std::vector<Call>>& behind) {
    std::vector<Call> calls = behind[0];
    size_t i = 0;
    for (const std::string& line : lines_of(script)) {
        calls.push_back(call_of(random, formula, line));
        i++;
        calls.insert(calls.end(), behind[i].begin(), behind[i].end());
    }
    return calls;
}

struct Generated {
    Formula written, formula;  // as it stands in the book, and as it is read
    Case example;
    std::vector<Call> calls;
    uint64_t seed = 0;  // of the lent memory
};

// Every third case is wide, and its decisions mostly make literals false.
Generated generate(int number, uint64_t seed) {
    static const shapes::Shape wide_shape{"wide", shapes::wide, 0};
    bool is_wide = number % 3 == 2;
    const shapes::Shape& shape = is_wide ? wide_shape : shapes::of_case(number / 3 * 2 + number % 3);
    Random random(seed);
    Generated made;
    made.written = repeats::any(random, shape.make(random));
    made.formula = as_read(made.written);
    std::string book = random.chance(30) ? Layout(random).print(made.written) : dimacs(made.written);
    Run run(made.formula);
    run.open();
    Fixings fixings(random);
    Player player(
        random, [&](const std::vector<int>& decisions) { return led_to(run, decisions); }, is_wide ? random.between(0, 40) : 50,
        [&](int level, bool conflict) { return fixings.put(static_cast<uint32_t>(level), conflict); });
    std::string script = player.write(line_count(random, made.formula)).script;
    made.example = Case{shape.name, seed, book, script, 0};
    made.calls = calls_of(random, made.formula, script, fixings.behind);
    made.seed = random.next();
    return made;
}

std::vector<std::string> lines_by(const Formula& formula, Fault fault, const std::string& script) {
    Run run(formula, fault);
    return expected_lines(run, script, [](const Run&, const Answer&) {});
}

// The library beside a run, right or wrong, on the book's formula, read rightly or wrongly, and seen so.
void compare_library(const Generated& made, const Formula& formula, Fault fault, const View& view, Work& work) {
    Random random(made.seed);
    Library library(random, *made.example.book);
    Run run(formula, fault);
    compare_calls(random, run, library, made.calls, view, work);
}

// A run, right or wrong, by itself: what must stay over each call, and what must hold of lookups, by the text alone.
void check_run(const Generated& made, Fault fault) {
    Run run(made.formula, fault);
    run.open();
    Numbers before = session_numbers(run);
    Ages ages(static_cast<uint32_t>(made.formula.variables));
    ages.look(lookups_of(run));
    for (const Call& call : made.calls) {
        uint64_t answer = answer_call(run, call);
        Numbers after = session_numbers(run);
        check_kept(call, answer, before, after, static_cast<size_t>(made.formula.variables));
        ages.take(call, answer);
        ages.look(lookups_of(run));
        before = std::move(after);
    }
}

// How often a wrong run, view or reading was noticed: by the numbers after each call, by the lines alone, and by the text alone.
struct Noticed {
    int cases = 0, by_numbers = 0, by_lines = 0, by_text = 0;

    // Whether by each way that can show it, in so many cases.
    bool in(int count, const Wrong& wrong) const {
        return by_numbers >= count && (!wrong.in_script || by_lines >= count) && (!wrong.in_text || by_text >= count);
    }

    void add(const Generated& made, const Wrong& wrong, const std::vector<std::string>& expected) {
        cases++;
        Formula formula = wrong.reading ? wrong.reading(made.written) : made.formula;
        Work work;
        if (disagrees("", [&] { compare_library(made, formula, wrong.fault, wrong.view, work); })) by_numbers++;
        if (wrong.in_script && lines_by(formula, wrong.fault, made.example.script) != expected) by_lines++;
        if (wrong.in_text && disagrees("", [&] { check_run(made, wrong.fault); })) by_text++;
    }

    void print(const Wrong& wrong) const {
        if (!in(1, wrong)) throw std::runtime_error("not noticed: " + wrong.name);
        std::cout << wrong.name << " " << by_numbers << " of " << cases;
        if (wrong.in_script) std::cout << " (" << by_lines << " by lines alone)";
        if (wrong.in_text) std::cout << " (" << by_text << " by the text alone)";
    }
};

// Every wrong run, view and reading has to differ from the proved engine in some of the first cases; it is tried until it did in enough.
void check_wrong(int count) {
    std::vector<Noticed> noticed(wrong_list().size());
    for (int number = 0; number < count; number++) {
        Generated made = generate(number, FIRST_SEED + static_cast<uint64_t>(number));
        std::vector<std::string> expected = lines_by(made.formula, Fault::NONE, made.example.script);
        for (size_t i = 0; i < noticed.size(); i++)
            if (!noticed[i].in(ENOUGH, wrong_list()[i])) noticed[i].add(made, wrong_list()[i], expected);
    }
    std::cout << "counts: wrong runs, views and readings noticed, in so many of the cases tried:";
    for (size_t i = 0; i < noticed.size(); i++) {
        std::cout << (i == 0 ? " " : ", ");
        noticed[i].print(wrong_list()[i]);
    }
    std::cout << std::endl;
}

void run_case(Bench& bench, int number, uint64_t seed, Totals& totals, Work& work) {
    Generated made = generate(number, seed);
    totals.add(made.written);
    Run run(made.formula);
    auto count = [&](const Run& now, const Answer& answer) { totals.add(static_cast<int>(now.starts.size()), answer); };
    std::vector<std::string> expected = expected_lines(run, made.example.script, count);
    bench.run(made.example, [&](const std::string& output) {
        compare_lines(expected, output);
        Random random(seed);
        compare_room(random, made.formula, *made.example.book);
        compare_library(made, made.formula, Fault::NONE, [](Seen&) {}, work);
    });
    work.checks += run.total();
}

// 1,000,000 backtracks are taken by the library, down to a fixed decision; the next is refused by 17, and by 16 where it reaches that one.
// Every check on the way is counted.
void compare_million(const Formula& formula) {
    Random random(FIRST_SEED);
    Library library(random, dimacs(formula));
    Run run(formula);
    View plain = [](Seen&) {};
    Work work;
    Looks looks(random, library, work.lookups);
    const std::string name = "answer, after take-backs";
    auto take = [&](Call::Kind kind, int number) {
        Call call{kind, static_cast<uint32_t>(number)};
        uint64_t answer = library.take(call);
        compare_number(answer, answer_call(run, call), name, run.backtracks);
        looks.take(call, answer);
    };
    auto see = [&] {
        compare_seen(run, library, plain, work);
        looks.look(run, library, Looks::ALWAYS);
    };
    auto loose = [&] { return static_cast<int>(run.starts.size() - run.fixed); };
    compare_opening(run, library, plain, work, looks);
    take(Call::DECIDE, 2);
    take(Call::FIX, 1);
    for (uint64_t i = 0; i <= MAX_BACKTRACKS; i++) {
        for (int decisions = random.between(1, 2); decisions > 0; decisions--) take(Call::DECIDE, random.between(4, 11));
        take(Call::BACKTRACK, loose());
        if (i % 1000 >= 998 || i == MAX_BACKTRACKS) see();
    }
    take(Call::BACKTRACK, loose() + 1);
    see();
    std::cout << "counts: by the library " << run.backtracks << " take-backs and " << run.total() << " checks on one book\n";
}

void run_million(Bench& bench) {
    Formula formula{5, {{1, 2, 3, 4, 5}, {-1, -2, 3, -4}, {2, -3, 5}}};
    bench.run(Case{"million", 0, dimacs(formula), "", 0}, [&](const std::string&) { compare_million(formula); });
}

// The longest answer that there is: one decision makes the 499 other variables false. The script lacks its last byte 10.
void run_longest(Bench& bench) {
    Formula formula{MAX_VARIABLES, {}};
    for (int variable = 1; variable < MAX_VARIABLES; variable++) formula.clauses.push_back({variable, -(variable + 1)});
    std::string script = "-1\nb 1\n-1";
    Run run(formula);
    std::vector<std::string> expected = expected_lines(run, script, [](const Run&, const Answer&) {});
    bench.run(Case{"longest", 0, dimacs(formula), script, 0}, [&](const std::string& output) { compare_lines(expected, output); });
    std::cout << "counts: the longest answer has " << expected[1].size() + 1 << " bytes\n";
}

// The highest level that there is: 500 decisions are in force, every third is negative, and the last one, too.
void compare_highest(const Formula& formula) {
    Random random(FIRST_SEED);
    Library library(random, dimacs(formula));
    Run run(formula);
    Work work;
    Looks looks(random, library, work.lookups);
    compare_opening(run, library, [](Seen&) {}, work, looks);
    for (uint32_t variable = 1; variable <= MAX_VARIABLES; variable++)
        compare_call(run, library, {Call::DECIDE, 2 * variable + (variable % 3 == 2 ? 1 : 0)}, [](Seen&) {}, work, looks);
    looks.look(run, library, Looks::ALWAYS);
    std::cout << "counts: the greatest answer to a lookup is " << library.lookup(MAX_VARIABLES) << ", at level " << work.lookups.highest << "\n";
}

void run_highest(Bench& bench) {
    Formula formula{MAX_VARIABLES, {}};
    bench.run(Case{"highest", 0, dimacs(formula), "", 0}, [&](const std::string&) { compare_highest(formula); });
}

int test(int argc, char** argv) {
    Bench bench(argc, argv, CASES);
    check_listing();
    check_lookups();
    check_reading();
    check_wrong(std::min(bench.case_count(), SELF_CHECKS));
    Totals totals;
    Work work;
    bench.run_cases("counts", FIRST_SEED, [&](int number, uint64_t seed) { run_case(bench, number, seed, totals, work); });
    run_longest(bench);
    run_highest(bench);
    if (bench.case_count() == CASES) run_million(bench);
    work.print();
    totals.print("counts", bench.seconds());
    return bench.exit_code();
}

}  // namespace

int main(int argc, char** argv) {
    return guarded([&] { return test(argc, argv); });
}
