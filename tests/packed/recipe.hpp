// A second way to make the calls, by numbers, in parts that can be exchanged for others.
#pragma once
#include <algorithm>
#include <cstddef>
#include <cstdint>
#include <functional>
#include <optional>
#include <type_traits>

#include "../support/loan.hpp"
#include "lending.hpp"

namespace methods {

enum class Sign { PLUS, MINUS, NONE };

// What is at fault in writing: the length or the map, a value, the room.
struct Faults {
    bool form = false, value = false, room = false;
};

inline uint64_t limit_of(size_t bytes) { return bytes < 2 ? 10 : 100 * limit_of(bytes - 1); }

inline bool stands_in(uint8_t map, size_t bit) { return map >> bit & 1; }

// The place of a bit's field in its record.
inline size_t packed_place(uint8_t map, size_t bit) { return bit == 0 ? 1 : packed_place(map, bit - 1) + (stands_in(map, bit - 1) ? 7 : 0); }

// As the parts stand here they are right. A half is numbered from 0, a field's bytes from the highest.
struct Recipe {
    std::function<size_t(size_t bytes)> taken = [](size_t bytes) { return bytes; };  // of a length that is given in writing
    std::function<bool(size_t bytes)> length = [](size_t bytes) { return bytes != 0 && bytes < 8; };
    std::function<uint64_t(size_t bytes)> limit = limit_of;  // the least size that is over the digits
    std::function<uint64_t(int64_t value)> size = [](int64_t value) { return value < 0 ? static_cast<uint64_t>(~value) + 1 : static_cast<uint64_t>(value); };
    std::function<bool(int64_t value, size_t bytes)> over = [](int64_t, size_t) { return false; };  // what else is over
    std::function<unsigned(int64_t value)> sign_half = [](int64_t value) { return value < 0 ? 13u : 12u; };
    std::function<bool(unsigned half, size_t place)> digit = [](unsigned half, size_t) { return half < 10; };
    std::function<Sign(unsigned half)> sign = [](unsigned half) { return half == 12 || half == 15 ? Sign::PLUS : half == 13 ? Sign::MINUS : Sign::NONE; };
    std::function<std::optional<int64_t>(int64_t size, Sign sign)> value = [](int64_t size, Sign sign) { return sign == Sign::MINUS ? -size : size; };
    std::function<Bytes(Bytes)> arranged = [](Bytes field) { return field; };
    std::function<bool(uint8_t map)> map = [](uint8_t map) { return map < 8; };
    std::function<uint8_t(uint8_t map)> map_byte = [](uint8_t map) { return map; };
    std::function<bool(uint8_t map, size_t bit)> stands = stands_in;
    std::function<bool(uint8_t map, size_t bit)> judged = stands_in;
    std::function<size_t(uint8_t map, size_t bit)> place = packed_place;
    std::function<std::optional<int64_t>(int64_t value, size_t bit)> part = [](int64_t value, size_t) { return value; };  // of a record that is read
    std::function<bool(size_t length, size_t due)> record_length = [](size_t length, size_t due) { return length == due; };
    std::function<bool(size_t need, size_t room)> fits = [](size_t need, size_t room) { return need <= room; };
    std::function<uint64_t(const Faults&)> refusal = [](const Faults& faults) { return faults.form ? 23 : faults.value ? 24 : faults.room ? 10 : 0; };
};

// The recipe with one part of it another.
template <class Part>
Recipe with(Part Recipe::*part, const std::common_type_t<Part>& other) {
    Recipe recipe;
    recipe.*part = other;
    return recipe;
}

inline bool is_over(const Recipe& recipe, int64_t value, size_t bytes) { return recipe.size(value) >= recipe.limit(bytes) || recipe.over(value, bytes); }

inline Bytes field_by(const Recipe& recipe, int64_t value, size_t bytes) {
    Bytes field(bytes);
    uint64_t rest = recipe.size(value);
    for (size_t half = 2 * bytes; half > 0; half--) {
        const bool is_sign = half == 2 * bytes;
        const auto number = is_sign ? recipe.sign_half(value) : static_cast<unsigned>(rest % 10);
        rest = is_sign ? rest : rest / 10;
        field[(half - 1) / 2] = static_cast<uint8_t>(field[(half - 1) / 2] + (half % 2 == 0 ? number : 16 * number));
    }
    return recipe.arranged(field);
}

inline std::optional<int64_t> value_by(const Recipe& recipe, const Bytes& lent) {
    if (!recipe.length(lent.size())) return std::nullopt;
    const Bytes field = recipe.arranged(lent);
    int64_t size = 0;
    for (size_t half = 0; half + 1 < 2 * field.size(); half++) {
        const unsigned number = half % 2 == 0 ? field[half / 2] / 16 : field[half / 2] % 16;
        if (!recipe.digit(number, half)) return std::nullopt;
        size = 10 * size + number;
    }
    const Sign sign = field.empty() ? Sign::PLUS : recipe.sign(field.back() % 16);
    if (sign == Sign::NONE) return std::nullopt;
    return recipe.value(size, sign);
}

// Writes what is made, unless something is at fault.
inline uint64_t put(const Recipe& recipe, const Bytes& made, Faults faults, LentBytes& room) {
    faults.room = !recipe.fits(made.size(), room.length);
    const uint64_t refusal = recipe.refusal(faults);
    if (refusal != 0) return c_refusal(refusal);
    std::copy(made.begin(), made.end(), room.at(0));
    return made.size();
}

// A length that is refused needs as many bytes as it says.
inline uint64_t write_field_by(const Recipe& recipe, Lending& lent) {
    const size_t bytes = recipe.taken(lent.bytes);
    if (!recipe.length(bytes)) return c_refusal(recipe.refusal({true, is_over(recipe, lent.values[0], std::min(bytes, FIELD)), bytes > lent.lent.length}));
    return put(recipe, field_by(recipe, lent.values[0], bytes), {false, is_over(recipe, lent.values[0], bytes)}, lent.lent);
}

inline uint64_t read_field_by(const Recipe& recipe, Lending& lent) {
    const std::optional<int64_t> value = value_by(recipe, lent.lent.all());
    if (!value) return c_refusal(23);
    lent.places.at(0) = *value;
    return 0;
}

inline uint64_t write_quote_by(const Recipe& recipe, Lending& lent) {
    Bytes record{recipe.map_byte(lent.map)};
    Faults faults{!recipe.map(lent.map)};
    for (size_t bit = 0; bit < VALUES; bit++) {
        faults.value = faults.value || (recipe.judged(lent.map, bit) && is_over(recipe, lent.values[bit], FIELD));
        if (!recipe.stands(lent.map, bit)) continue;
        const Bytes field = field_by(recipe, lent.values[bit], FIELD);
        const size_t place = recipe.place(lent.map, bit);
        record.resize(std::max(record.size(), place + FIELD));
        std::copy(field.begin(), field.end(), record.begin() + static_cast<std::ptrdiff_t>(place));
    }
    return put(recipe, record, faults, lent.lent);
}

// The value of a bit; 0 where it does not stand.
inline std::optional<int64_t> part_by(const Recipe& recipe, const LentBytes& lent, uint8_t map, size_t bit) {
    if (!recipe.stands(map, bit)) return 0;
    const std::optional<int64_t> value = value_by(recipe, lent.part(recipe.place(map, bit), FIELD));
    return value ? recipe.part(*value, bit) : std::nullopt;
}

inline uint64_t read_quote_by(const Recipe& recipe, Lending& lent) {
    const uint8_t map = lent.lent.part(0, 1)[0];
    const size_t fields = size_t{stands_in(map, 0)} + size_t{stands_in(map, 1)} + size_t{stands_in(map, 2)};
    if (!recipe.map(map) || !recipe.record_length(lent.lent.length, 1 + 7 * fields)) return c_refusal(23);
    Values values{};
    for (size_t bit = 0; bit < VALUES; bit++) {
        const std::optional<int64_t> value = part_by(recipe, lent.lent, map, bit);
        if (!value) return c_refusal(23);
        values[bit] = *value;
    }
    for (size_t bit = 0; bit < VALUES; bit++) lent.places.at(bit) = values[bit];
    return recipe.map_byte(map);
}

// A call by the recipe.
inline Way by(uint64_t (*call)(const Recipe&, Lending&), const Recipe& recipe = {}) {
    return [call, recipe](Lending& lent) { return call(recipe, lent); };
}

}  // namespace methods
