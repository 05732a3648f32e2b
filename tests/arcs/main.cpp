// Compares the domains that propagation by `desk` leaves in support encodings with those that AC-3 leaves.
#include <algorithm>
#include <cmath>
#include <cstddef>
#include <cstdint>
#include <cstdlib>
#include <iostream>
#include <stdexcept>
#include <string>
#include <utility>
#include <vector>

#include "../support/bench.hpp"
#include "../support/compare.hpp"
#include "../support/follow.hpp"
#include "../support/play.hpp"
#include "../support/repeats.hpp"
#include "../support/totals.hpp"
#include "csp.hpp"
#include "encoding.hpp"

namespace {

constexpr uint64_t FIRST_SEED = 30020000;
constexpr int CASES = 900;

// Domain sizes within the limits on variables and clauses: one size for all, or each its own.
std::vector<int> random_sizes(Random& random, bool at_most_one) {
    int largest = random.pick(std::vector<int>{2, 3, 4, 5, 6, 8, 10, 15, 30}), smallest = random.chance(50) ? largest : 1;
    int count = random.between(2, random.pick(std::vector<int>{4, 10, 40, 160})), variables = 0, clauses = 0;
    std::vector<int> sizes;
    while (static_cast<int>(sizes.size()) < count) {
        int size = random.between(smallest, largest);
        variables += size;
        clauses += 1 + (at_most_one ? size * (size - 1) / 2 : 0);
        if (variables > MAX_VARIABLES || clauses > MAX_CLAUSES * 2 / 3) break;
        sizes.push_back(size);
    }
    return sizes;
}

std::vector<std::pair<int, int>> random_pairs(Random& random, int count) {
    int density = random.pick(std::vector<int>{2, 5, 10, 30, 60, 100});  // of 100
    std::vector<std::pair<int, int>> pairs;
    for (int one = 0; one < count; one++)
        for (int other = one + 1; other < count; other++)
            if (other == one + 1 || random.chance(density)) pairs.emplace_back(one, other);
    random.shuffle(pairs);
    return pairs;
}

// Of 100 value pairs, so many are in conflict: any number, or about as many as leave one solution.
int random_tightness(Random& random, const Csp& csp, size_t pairs) {
    if (random.chance(40) || pairs == 0) return random.between(2, random.pick(std::vector<int>{30, 60, 95}));
    double bits = 0, constrainedness = random.between(50, 130) / 100.0;
    for (int size : csp.sizes) bits += std::log2(size);
    return std::clamp(static_cast<int>(100 * (1 - std::exp2(-constrainedness * bits / static_cast<double>(pairs)))), 1, 95);
}

// Most problems have random relations, the others also some with names, as tight as they are.
Csp random_csp(Random& random, bool at_most_one) {
    Csp csp{random_sizes(random, at_most_one), {}};
    std::vector<std::pair<int, int>> pairs = random_pairs(random, static_cast<int>(csp.sizes.size()));
    int tightness = random_tightness(random, csp, pairs.size());
    std::vector<Relation> relations{Relation::RANDOM};
    if (random.chance(20)) relations = {Relation::RANDOM, Relation::LESS, Relation::EQUAL, Relation::DIFFERENT, Relation::APART};
    for (auto [one, other] : pairs)
        csp.constraints.push_back(random_constraint(random, csp, one, other, random.pick(relations), tightness));
    return csp;
}

// Figure 1 of the source: a < b, b < c and c < a over three values, which is not arc consistent.
Csp figure_one(Random& random) {
    Csp csp{{3, 3, 3}, {}};
    for (int i = 0; i < 3; i++) csp.constraints.push_back(random_constraint(random, csp, i, (i + 1) % 3, Relation::LESS, 0));
    return csp;
}

// A positive decision takes the other values away, a negative one its own.
void restrict_domain(const Encoding& encoding, int decision, Domains& domains) {
    int variable = std::abs(decision);
    size_t i = static_cast<size_t>(std::upper_bound(encoding.bases.begin(), encoding.bases.end(), variable) - encoding.bases.begin()) - 1;
    for (int value = 0; value < static_cast<int>(domains[i].size()); value++)
        if ((encoding.bases[i] + value == variable) == (decision < 0)) domains[i][value] = false;
}

// What AC-3 leaves, in Boolean variables: a value that is gone is false, an only value is true.
Assignment arc_consistent(const Csp& csp, const Encoding& encoding, const std::vector<int>& decisions) {
    Domains domains = full_domains(csp);
    for (int decision : decisions) restrict_domain(encoding, decision, domains);
    Assignment left{!make_arc_consistent(csp, domains), std::vector<int>(encoding.formula.variables + 1, 0)};
    for (size_t i = 0; i < domains.size(); i++) {
        bool only = std::count(domains[i].begin(), domains[i].end(), true) == 1;
        for (size_t value = 0; value < domains[i].size(); value++)
            left.values[encoding.bases[i] + static_cast<int>(value)] = !domains[i][value] ? -1 : only ? 1 : 0;
    }
    return left;
}

void run_csp(Bench& bench, Random& random, const std::string& shape, uint64_t seed, Csp csp, const Clauses& wanted, Totals& totals) {
    Encoding encoding = encode(csp, wanted);
    if (!within_limits(encoding.formula)) throw std::runtime_error("an encoding is too large, seed " + std::to_string(seed));
    if (random.chance(50)) random.shuffle(encoding.formula.clauses);
    Formula written = random.chance(50) ? repeats::spread(random, encoding.formula) : encoding.formula, formula = as_read(written);
    Oracle oracle = [&](const std::vector<int>& decisions) { return arc_consistent(csp, encoding, decisions); };
    int lines = oracle({}).conflict ? 5 : random.between(10, 100);
    Play play = Player(random, oracle, wanted.at_most_one ? random.between(10, 60) : 0).write(lines);
    Case example{shape, seed, dimacs(written), play.script, 0};
    totals.add(written);
    bench.run(example, [&](const std::string& output) {
        follow(formula, example.script, output, [&](size_t i, const Session& session, const Answer& answer) {
            compare(session, *play.after.at(i));
            totals.add(session, answer);
        });
    });
}

// Every fifth encoding lacks the at-most-one clauses; its decisions only take values away (theorem 2 of the source).
void run_case(Bench& bench, int number, uint64_t seed, Totals& totals) {
    Random random(seed);
    Clauses wanted{number % 5 != 4, random.chance(30)};
    if (number == 0)
        run_csp(bench, random, "figure", seed, figure_one(random), wanted, totals);
    else
        run_csp(bench, random, wanted.at_most_one ? "support" : "open", seed, random_csp(random, wanted.at_most_one), wanted, totals);
}

int test(int argc, char** argv) {
    Bench bench(argc, argv, CASES);
    Totals totals;
    bench.run_cases("arcs", FIRST_SEED, [&](int number, uint64_t seed) { run_case(bench, number, seed, totals); });
    totals.print("arcs", bench.seconds());
    return bench.exit_code();
}

}  // namespace

int main(int argc, char** argv) {
    return guarded([&] { return test(argc, argv); });
}
