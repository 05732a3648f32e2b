// Rounding to the nearest cent, halves away from zero: by the C library, what it must be by exact fractions, and other roundings.
#pragma once
#include <algorithm>
#include <cfloat>
#include <cmath>
#include <cstdint>
#include <functional>
#include <iostream>
#include <stdexcept>
#include <string>
#include <vector>

#include "../support/loan.hpp"
#include "../support/random.hpp"

using Wide = __int128;

// A product of cents and thousandths, in whole cents.
using Rounding = std::function<Wide(Wide product)>;

// A product has up to 50 bits, and a half is exact.
static_assert(LDBL_MANT_DIG >= 64);
inline Wide by_llroundl(Wide product) { return llroundl(static_cast<long double>(product) / 1000); }

inline Wide size(Wide number) { return number < 0 ? -number : number; }

// At most half a cent off, and at half a cent the one that is farther from zero.
inline bool is_nearest(Wide product, Wide cents) {
    Wide off = size(1000 * cents - product);
    return 2 * off < 1000 || (2 * off == 1000 && size(1000 * cents) > size(product));
}

inline void compare_rounding(Wide product, const Rounding& rounding) {
    Wide cents = rounding(product);
    if (!is_nearest(product, cents))
        throw Disagreement("rounding of " + std::to_string(static_cast<int64_t>(product)) + " is " + std::to_string(static_cast<int64_t>(cents)));
}

// By quotient and remainder, whose sign is the product's; `away(size of the remainder, quotient, sign)` says whether to go away from zero.
template <class Away>
Rounding by_remainder(Away away) {
    return [away](Wide product) {
        Wide quotient = product / 1000, sign = product < 0 ? -1 : 1;
        return away(static_cast<int>(size(product % 1000)), quotient, sign) ? quotient + sign : quotient;
    };
}

inline Rounding half_away() {
    return by_remainder([](int rest, Wide, Wide) { return rest >= 500; });
}

struct NamedRounding {
    std::string name;
    Rounding rounding;
};

inline std::vector<NamedRounding> wrong_roundings() {
    return {
        {"half to even", by_remainder([](int rest, Wide quotient, Wide) { return rest > 500 || (rest == 500 && quotient % 2 != 0); })},
        {"half to odd", by_remainder([](int rest, Wide quotient, Wide) { return rest > 500 || (rest == 500 && quotient % 2 == 0); })},
        {"half towards zero", by_remainder([](int rest, Wide, Wide) { return rest > 500; })},
        {"half upwards", by_remainder([](int rest, Wide, Wide sign) { return rest > 500 || (rest == 500 && sign > 0); })},
        {"half downwards", by_remainder([](int rest, Wide, Wide sign) { return rest > 500 || (rest == 500 && sign < 0); })},
        {"from 499 on", by_remainder([](int rest, Wide, Wide) { return rest >= 499; })},
        {"cut", by_remainder([](int, Wide, Wide) { return false; })},
        {"downwards", by_remainder([](int rest, Wide, Wide sign) { return rest > 0 && sign < 0; })},
        {"upwards", by_remainder([](int rest, Wide, Wide sign) { return rest > 0 && sign > 0; })},
        {"away from zero", by_remainder([](int rest, Wide, Wide) { return rest > 0; })},
    };
}

// All products around zero, those around halves of any size, and any, up to the greatest there are.
inline std::vector<Wide> some_products() {
    constexpr int64_t GREATEST = 1000000000000000;
    std::vector<Wide> products;
    Random random(0);
    for (int near = -5000; near <= 5000; near++) products.insert(products.end(), {near, near + GREATEST, near - GREATEST});
    for (int i = 0; i < 100000; i++) {
        Wide any = static_cast<Wide>(random.next() % (2 * GREATEST + 1)) - GREATEST;
        products.insert(products.end(), {any, any - any % 1000 + random.between(-1, 1) + random.sign(500)});
    }
    return products;
}

// Fractions confirm all that the C library and the remainders round, and refute each wrong rounding.
inline void check_roundings() {
    std::vector<Wide> products = some_products();
    for (Wide product : products) {
        compare_rounding(product, by_llroundl);
        compare_rounding(product, half_away());
    }
    std::cout << "pricing: " << products.size() << " roundings by the C library confirmed by fractions; so many of these are refuted:";
    const char* before = " ";
    for (const NamedRounding& wrong : wrong_roundings()) {
        auto refuted = std::count_if(products.begin(), products.end(), [&](Wide product) { return !is_nearest(product, wrong.rounding(product)); });
        if (refuted == 0) throw std::runtime_error("confirmed: " + wrong.name);
        std::cout << before << wrong.name << " " << refuted;
        before = ", ";
    }
    std::cout << std::endl;
}
