// What the trials lend: values on both sides of each limit and of every number of digits, good fields, and memory that held anything before.
#pragma once
#include <algorithm>
#include <cstddef>
#include <cstdint>
#include <functional>
#include <limits>
#include <string>
#include <vector>

#include "../support/random.hpp"
#include "due.hpp"

// Takes each call of the trials.
using Each = std::function<void(const Lending&)>;

constexpr int64_t LEAST = std::numeric_limits<int64_t>::min(), MOST = std::numeric_limits<int64_t>::max();
constexpr int64_t OVER = 10000000000000;  // the least size that is over a record's digits

inline int64_t power_of_ten(size_t exponent) { return exponent == 0 ? 1 : 10 * power_of_ten(exponent - 1); }

// A number, the ones beside it, and the same below zero.
inline void push_around(std::vector<int64_t>& list, int64_t number) {
    for (int64_t near : {number - 1, number, number + 1}) list.insert(list.end(), {near, -near});
}

// The sides of each power of ten and of two, and digits that all differ from those beside them. Zero stands behind a negative one, too.
inline std::vector<int64_t> limit_values() {
    std::vector<int64_t> list{0, MOST, LEAST, LEAST + 1};
    for (size_t digits = 0; digits < 19; digits++) push_around(list, power_of_ten(digits));
    for (int bit = 2; bit < 63; bit++) push_around(list, int64_t{1} << bit);
    for (int64_t number = 12; number < power_of_ten(18); number = 10 * number + (number + 1) % 10) list.insert(list.end(), {number, -number});
    list.insert(list.end(), {-7, 0});
    return list;
}

// Those that a field of so many bytes holds.
inline std::vector<int64_t> limit_values_in(size_t bytes) {
    const int64_t over = power_of_ten(2 * bytes - 1);
    std::vector<int64_t> list;
    for (int64_t value : limit_values())
        if (value > -over && value < over) list.push_back(value);
    return list;
}

class Draw {
public:
    explicit Draw(uint64_t seed) : random(seed) {}

    int below(int n) { return random.below(n); }

    uint8_t any_byte() { return static_cast<uint8_t>(random.next()); }

    // So many digits behind as many zeros as are needed; the first digit may be zero, too.
    std::string digits(size_t digits, size_t places) {
        std::string text(places, '0');
        for (size_t i = places - digits; i < places; i++) text[i] = static_cast<char>('0' + random.below(10));
        return text;
    }

    // A good field of so many bytes: now and then zero or all nines, and with each of the signs.
    std::string good_field(size_t bytes) {
        const size_t places = 2 * bytes - 1;
        const int kind = random.below(8);
        const std::string size = kind == 0 ? std::string(places, '0') : kind == 1 ? std::string(places, '9') : digits(1 + random.next() % places, places);
        return size + "CDF"[random.below(3)];
    }

    // The map, and so many good fields.
    Bytes good_record(uint8_t map, size_t fields) {
        std::string text = text_of({map});
        for (; fields > 0; fields--) text += good_field(FIELD);
        return bytes_of(text);
    }

    // Of so many digits, on either side of zero.
    int64_t value(size_t digits) {
        int64_t first = digits == 1 ? 0 : power_of_ten(digits - 1);
        uint64_t count = digits == 19 ? static_cast<uint64_t>(MOST - first) : static_cast<uint64_t>(power_of_ten(digits) - first);
        int64_t size = first + static_cast<int64_t>(random.next() % count);
        return random.chance(50) ? size : -size;
    }

    // Within a record's digits.
    int64_t value_within() {
        const std::vector<int64_t> limits{0, 1, -1, OVER - 1, 1 - OVER};
        return random.chance(25) ? random.pick(limits) : value(1 + random.next() % 13);
    }

    int64_t value_over() {
        const std::vector<int64_t> limits{OVER, -OVER, OVER + 1, -OVER - 1, MOST, LEAST, LEAST + 1};
        return random.chance(60) ? random.pick(limits) : value(14 + random.next() % 6);
    }

    // So many of these bytes are lent, with the others behind them, at an address of any alignment.
    LentBytes lend(const Bytes& bytes, size_t length) {
        LentBytes lent;
        lent.start += static_cast<size_t>(random.below(16));
        lent.length = length;
        lent.none_as_null = random.chance(50);
        lent.memory.resize(lent.start + std::max(bytes.size(), length) + LentBytes::GUARD);
        for (uint8_t& byte : lent.memory) byte = any_byte();
        std::copy(bytes.begin(), bytes.end(), lent.at(0));
        return lent;
    }

    // What the places hold before: zero, and numbers of every size on either side of it.
    Places places() {
        Places held;
        for (int64_t& number : held.numbers) number = random.chance(20) ? 0 : value(1 + random.next() % 19);
        return held;
    }

    Lending reading(const Bytes& bytes, size_t length) {
        Lending lent;
        lent.lent = lend(bytes, length);
        lent.places = places();
        return lent;
    }

    Lending reading(const Bytes& bytes) { return reading(bytes, bytes.size()); }

    Lending writing_field(int64_t value, size_t bytes, size_t room) { return {{value}, bytes, 0, lend({}, room)}; }

    Lending writing_record(uint8_t map, const Values& values, size_t room) { return {values, 0, map, lend({}, room)}; }

private:
    Random random;
};

inline void set_half(Bytes& bytes, size_t half, unsigned number) {
    uint8_t& byte = bytes[half / 2];
    byte = static_cast<uint8_t>(half % 2 == 0 ? number << 4 | (byte & 15) : (byte & 0xf0) | number);
}

// The bytes with one half byte replaced by each of the sixteen, at each place.
inline void damage_each(Draw& draw, const Bytes& bytes, const Each& each) {
    for (size_t half = 0; half < 2 * bytes.size(); half++)
        for (unsigned number = 0; number < 16; number++) {
            Bytes damaged = bytes;
            set_half(damaged, half, number);
            each(draw.reading(damaged));
        }
}
