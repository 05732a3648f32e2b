// A kind of call is compared on random cases and on worked rows: by the library, with rows changed by one, and with other ways in the call's place.
#pragma once
#include <algorithm>
#include <cstdint>
#include <functional>
#include <iostream>
#include <map>
#include <stdexcept>
#include <string>
#include <utility>
#include <vector>

#include "../support/cases.hpp"
#include "../support/named.hpp"

// A row that has become wrong, and how the disagreement begins that must notice it.
template <class Row>
struct WrongRow {
    std::string part;
    Row row;
};

// What is compared of a kind of call, in one way or another; a row's comparison answers what it came to, and name_of(row) is its name.
template <class Way, class Row>
struct Calls {
    std::string name;
    std::vector<Row> rows;
    std::function<void(uint64_t seed, const shapes::Shape& shape, const Way& way)> compare_case;
    std::function<std::string(const Row& row, const Way& way)> compare_row;

    // How many rows notice this way by this part.
    long noticed_of(const std::string& part, const Way& way) const {
        return std::count_if(rows.begin(), rows.end(), [&](const Row& row) { return disagrees(part, [&] { compare_row(row, way); }); });
    }

    // How many rows are not as they must be.
    int failures(const Way& library) const {
        int failed = 0;
        std::map<std::string, long> answers;
        for (const Row& row : rows) {
            try {
                answers[compare_row(row, library)]++;
            } catch (const Disagreement& disagreement) {
                failed++;
                std::cout << "FAILED " << name_of(row) << ": " << disagreement.what() << "\n";
            }
        }
        std::cout << "pricing: " << rows.size() << " " << name;
        for (const auto& [answer, count] : answers) std::cout << ", " << answer << ": " << count;
        std::cout << std::endl;
        return failed;
    }

    // Each number of a row changed by one.
    void check_rows(const Way& library, const std::function<std::vector<WrongRow<Row>>(const Row&)>& changed) const {
        long noticed = 0;
        for (const Row& row : rows)
            for (const WrongRow<Row>& wrong : changed(row)) {
                bool told = disagrees(wrong.part, [&] { compare_row(wrong.row, library); });
                if (!told) throw std::runtime_error("a wrong value is not noticed by the " + wrong.part + ": " + name_of(row));
                noticed++;
            }
        std::cout << "pricing: " << noticed << " wrong values noticed in these " << name << std::endl;
    }

    // A wrong way is tried until enough cases noticed it by its part, and some rows must; of a right one none does, by any part.
    void check_ways(const Cases& cases, const NamedList<Way>& list, int most, int enough, int due) const {
        const char* before = " ";
        for (const Named<Way>& named : list) {
            auto [noticed, tried] = cases.trial(most, enough, [&](uint64_t seed, const shapes::Shape& shape) {
                expect(!disagrees(named.part, [&] { compare_case(seed, shape, named.way); }), "noticed");
            });
            long rows_noticed = noticed_of(named.part, named.way);
            std::string result = named.name + " " + std::to_string(noticed) + " of " + std::to_string(tried) + " and " + std::to_string(rows_noticed);
            if (noticed != due || (rows_noticed > 0) != (due > 0)) throw std::runtime_error("noticed: " + result + ", must be " + std::to_string(due));
            std::cout << before << result;
            before = ", ";
        }
        std::cout << std::endl;
    }
};
