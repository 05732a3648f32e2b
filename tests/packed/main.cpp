// By the library, fields and records of packed decimal are written and read as K8 says: answer, values, bytes, and all lent memory; and what it claims of
// several calls holds. Wrong ways must be noticed, and a right one must not.
#include <chrono>
#include <cstdint>
#include <functional>
#include <iostream>
#include <stdexcept>
#include <string>
#include <vector>

#include "../support/bench.hpp"
#include "claim_methods.hpp"
#include "claims.hpp"
#include "record_methods.hpp"
#include "tally.hpp"
#include "trials.hpp"
#include "worked.hpp"

namespace {

constexpr long ENOUGH = 10;

// A call: what is due of it, the library's and another right way to make it, and what is tried with it.
struct Call {
    std::string name;
    Way due, library, right;
    std::function<void(const Each&)> trials;
    Worklist rows;
    methods::WayList wrong;
    Tally tally;
};

std::vector<Call> all_calls() {
    using namespace methods;
    return {
        {"tariff_read_field", due_of_read_field, read_field_by_library, by(read_field_by), read_field_trials, worked_read_fields(), wrong_read_fields(),
         tallies::of_read_fields()},
        {"tariff_write_field", due_of_write_field, write_field_by_library, by(write_field_by), write_field_trials, worked_written_fields(),
         wrong_written_fields(), tallies::of_written_fields()},
        {"tariff_write_quote", due_of_write_quote, write_quote_by_library, by(write_quote_by), write_quote_trials, worked_written_records(),
         wrong_written_records(), tallies::of_written_records()},
        {"tariff_read_quote", due_of_read_quote, read_quote_by_library, by(read_quote_by), read_quote_trials, worked_read_records(), wrong_read_records(),
         tallies::of_read_records()},
    };
}

// All trials of a call in one way, until one disagrees; what is due of each goes to `compared`.
void compare_trials(const Call& call, const Way& way, const std::function<void(const Lending& lent, uint64_t due)>& compared) {
    call.trials([&](const Lending& lent) { compared(lent, compare_call(lent, way, call.due)); });
}

// By the library and in the right way; on the worked rows, by what is due, too.
void compare_library(const Call& call) {
    Tally tally = call.tally;
    long calls = 0;
    compare_trials(call, call.library, [&](const Lending& lent, uint64_t due) {
        calls++;
        tally.count(lent, due);
    });
    compare_trials(call, call.right, [](const Lending&, uint64_t) {});
    for (const Worked& row : call.rows)
        for (const Way& way : {call.due, call.library, call.right}) compare_row(row, way);
    std::cout << "packed: " << call.name << ": " << calls << " calls compared, ";
    tally.print(ENOUGH);
    std::cout << "; " << call.rows.size() << " worked values" << std::endl;
}

// The comparison must disagree, by this part.
void expect_noticed(const std::string& name, const std::string& part, const std::function<void()>& compare) {
    if (!disagrees(part, compare)) throw std::runtime_error("not noticed by its " + part + ": " + name);
}

// Each wrong way is noticed in the trials; answers how many there are.
size_t check_wrong(const Call& call) {
    const char* before = ": noticed behind so many calls: ";
    std::cout << "packed: " << call.name;
    for (const Named<Way>& wrong : call.wrong) {
        long calls = 0;
        expect_noticed(wrong.name, wrong.part, [&] { compare_trials(call, wrong.way, [&](const Lending&, uint64_t) { calls++; }); });
        std::cout << before << wrong.name << " " << calls;
        before = ", ";
    }
    std::cout << std::endl;
    return call.wrong.size();
}

// Each worked row with one number changed; answers how many there are.
size_t check_wrong_rows(const Call& call) {
    size_t count = 0;
    for (const Worked& row : call.rows)
        for (const WrongRow& wrong : wrong_rows(row)) {
            expect_noticed(row.name, wrong.part, [&] { compare_row(wrong.row, call.library); });
            count++;
        }
    return count;
}

// The claims by the library, and wrong ways to keep them.
size_t test_claims() {
    Claims claims(SEED + 4, Ways{});
    claims.hold_all();
    NamedList<Ways> list = methods::wrong_field_claims();
    append(list, methods::wrong_record_claims());
    for (const Named<Ways>& wrong : list) expect_noticed(wrong.name, wrong.part, [&] { Claims(SEED + 4, wrong.way).hold_all(); });
    std::cout << "packed: claims: " << claims.count() << " fields and records written, read back and written again" << std::endl;
    return list.size();
}

int test() {
    auto start = std::chrono::steady_clock::now();
    size_t wrong_ways = 0, wrong_values = 0;
    std::string at;  // what is tested
    try {
        for (const Call& call : all_calls()) {
            at = call.name;
            compare_library(call);
            wrong_ways += check_wrong(call);
            wrong_values += check_wrong_rows(call);
        }
        at = "claims";
        wrong_ways += test_claims();
    } catch (const Disagreement& disagreement) {
        std::cout << "FAILED " << at << ": " << disagreement.what() << "\n";
        return 1;
    }
    double seconds = std::chrono::duration<double>(std::chrono::steady_clock::now() - start).count();
    std::cout << "packed: all " << wrong_ways << " wrong ways and " << wrong_values << " wrong worked values noticed; " << static_cast<int>(seconds + 0.5)
              << " s\n";
    return 0;
}

}  // namespace

int main() { return guarded(test); }
