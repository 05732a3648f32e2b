// The calls that are compared: fields and records of all maps, and of all lengths and rooms near the right ones and many far ones, read and written, good
// ones and ones with each fault.
#pragma once
#include <algorithm>
#include <cstddef>
#include <cstdint>
#include <string>
#include <vector>

#include "draw.hpp"

constexpr uint64_t SEED = 70080000;

// All fields of one byte and of two.
inline void read_short_fields(Draw& draw, const Each& each) {
    for (size_t bytes : {1, 2})
        for (unsigned code = 0; code < 1u << 8 * bytes; code++) {
            const auto high = static_cast<uint8_t>(code >> 8), low = static_cast<uint8_t>(code);
            each(draw.reading(bytes == 1 ? Bytes{low} : Bytes{high, low}));
        }
}

// No byte, and more than seven. The first of these may be a field, and the length one of a field in 8 bits.
inline void read_other_lengths(Draw& draw, const Each& each) {
    for (size_t length : {0, 8, 9, 10, 11, 12, 13, 14, 15, 16, 17, 18, 19, 20, 256, 257, 258, 263})
        for (size_t first = 1; first <= FIELD; first++) {
            const size_t rest = 2 * length > 2 * first ? 2 * length - 2 * first : 2;
            each(draw.reading(bytes_of(draw.good_field(first) + draw.digits(rest - 1, rest - 1) + "C"), length));
            each(draw.reading(bytes_of(draw.digits(first, 2 * first) + draw.digits(rest - 1, rest - 1) + "C"), length));
        }
    for (int i = 0; i < 50; i++) each(draw.reading(bytes_of(draw.good_field(FIELD)), 0));
}

// What is cut off of a length where it is kept in 8 bits, in 16 or in 17.
constexpr size_t CUTS[] = {1 << 8, 1 << 16, 1 << 17};

// Lengths that, where so much is cut off, are those of the good field in front, or 8 to 14.
inline void read_cut_lengths(Draw& draw, const Each& each) {
    for (size_t cut : CUTS)
        for (size_t rest = 1; rest <= 2 * FIELD; rest++) each(draw.reading(bytes_of(draw.good_field(std::min(rest, FIELD))), cut + rest));
}

// The limit values; and with each sign nines, any digit and zeros, in that order, which give each sum of digits.
inline void read_limits(Draw& draw, size_t bytes, const Each& each) {
    for (int64_t value : limit_values_in(bytes)) each(draw.reading(bytes_of(field_text(value, bytes))));
    const size_t digits = 2 * bytes - 1;
    for (size_t nines = 0; nines < digits; nines++)
        for (char digit = '0'; digit <= '9'; digit++)
            for (char sign : {'C', 'D', 'F'})
                each(draw.reading(bytes_of(std::string(nines, '9') + digit + std::string(digits - nines - 1, '0') + sign)));
}

inline void read_field_trials(const Each& each) {
    Draw draw(SEED);
    read_short_fields(draw, each);
    read_other_lengths(draw, each);
    for (size_t bytes = 1; bytes <= FIELD; bytes++) {
        read_limits(draw, bytes, each);
        for (int i = 0; i < 2000; i++) each(draw.reading(bytes_of(draw.good_field(bytes))));
        for (int i = 0; i < 50; i++) damage_each(draw, bytes_of(draw.good_field(bytes)), each);
        for (int i = 0; i < 100; i++) {
            Bytes any(bytes);
            for (uint8_t& byte : any) byte = draw.any_byte();
            each(draw.reading(any));
        }
    }
    read_cut_lengths(draw, each);
}

// Lengths that are no field's, some of which would be one in fewer bits.
inline std::vector<size_t> odd_lengths() {
    std::vector<size_t> list{0, 65536 + 2, size_t{1} << 31, (size_t{1} << 32) + 3, (size_t{1} << 63) + 7, SIZE_MAX / 2, SIZE_MAX - 1, SIZE_MAX};
    for (size_t bytes = 8; bytes <= 300; bytes++) list.push_back(bytes);
    return list;
}

// Rooms that are wider than a field needs, and on both sides of what a record needs; some would be too small in fewer bits.
inline std::vector<size_t> wide_rooms() {
    std::vector<size_t> list{64, 65536, 65536 + 8};
    for (size_t room = 13; room <= 40; room++) list.push_back(room);
    for (size_t room = 255; room <= 264; room++) list.push_back(room);
    return list;
}

// All values of the shortest fields, and some of each length in wide rooms.
inline void write_short_and_wide(Draw& draw, const Each& each) {
    for (size_t bytes : {1, 2})
        for (int64_t value = -1001; value <= 1001; value++) each(draw.writing_field(value, bytes, bytes + static_cast<size_t>(draw.below(3))));
    for (size_t bytes = 1; bytes <= FIELD; bytes++)
        for (size_t room : wide_rooms())
            for (int64_t value : {int64_t{0}, 1 - power_of_ten(2 * bytes - 1), draw.value(2 * bytes - 1)}) each(draw.writing_field(value, bytes, room));
}

inline void write_field_trials(const Each& each) {
    Draw draw(SEED + 1);
    const std::vector<int64_t> limits = limit_values();
    for (size_t bytes = 0; bytes <= 9; bytes++)
        for (size_t room = 0; room <= 12; room++)
            for (int64_t value : limits) each(draw.writing_field(value, bytes, room));
    for (size_t bytes : odd_lengths())
        for (size_t room : {0, 7, 12, 300})
            for (int64_t value : {int64_t{0}, int64_t{-1}, OVER, LEAST}) each(draw.writing_field(value, bytes, room));
    for (size_t bytes = 1; bytes <= FIELD; bytes++)
        for (size_t digits = 1; digits <= 19; digits++)
            for (int i = 0; i < 80; i++) each(draw.writing_field(draw.value(digits), bytes, bytes + static_cast<size_t>(draw.below(4)) - 1));
    write_short_and_wide(draw, each);
}

// Values of which those of some bits are over the digits.
inline Values values_over(Draw& draw, size_t over) {
    Values values{};
    for (size_t bit = 0; bit < VALUES; bit++) values[bit] = over >> bit & 1 ? draw.value_over() : draw.value_within();
    return values;
}

inline void write_quote_trials(const Each& each) {
    Draw draw(SEED + 2);
    for (unsigned map = 0; map < 256; map++)
        for (size_t room = 0; room <= 24; room++)
            for (size_t over = 0; over < 8; over++)
                for (int i = map < 8 ? 10 : 1; i > 0; i--) each(draw.writing_record(static_cast<uint8_t>(map), values_over(draw, over), room));
    for (uint8_t map = 0; map < 8; map++) {
        for (int64_t value : limit_values()) each(draw.writing_record(map, {value, value, value}, RECORD));
        for (size_t room : wide_rooms())
            for (size_t over : {0, 0, 7 - map}) each(draw.writing_record(map, values_over(draw, over), room));
    }
}

// So many bytes of a map and five fields, then any: all good; one of the first four damaged, which may leave it good; or any bytes from one of these on.
inline void read_map_at(Draw& draw, uint8_t map, size_t length, const Each& each) {
    const Bytes good = draw.good_record(map, 5);
    each(draw.reading(good, length));
    for (size_t from = 0; from < 4; from++) {
        Bytes damaged = good, any = good;
        set_half(damaged, 2 + 2 * FIELD * from + static_cast<size_t>(draw.below(2 * FIELD)), 10 + static_cast<unsigned>(draw.below(6)));
        for (size_t i = 1 + FIELD * from; i < any.size(); i++) any[i] = draw.any_byte();
        each(draw.reading(damaged, length));
        each(draw.reading(any, length));
    }
}

// Records whose standing values are limit values, alike or of turned sign.
inline void read_record_limits(Draw& draw, uint8_t map, const Each& each) {
    for (int64_t value : limit_values_in(FIELD))
        for (int64_t premium : {value, -value}) {
            std::string text = text_of({map});
            for (size_t bit = 0; bit < VALUES; bit++) text += stands(map, bit) ? field_text(bit == 1 ? premium : value, FIELD) : "";
            each(draw.reading(bytes_of(text)));
        }
}

// Lengths over 30, and far ones of which so much may be cut off that the right one is left.
inline void read_far_lengths(Draw& draw, uint8_t map, const Each& each) {
    for (size_t length = 31; length <= 40; length++) read_map_at(draw, map, length, each);
    for (size_t cut : CUTS) read_map_at(draw, map, cut + 1 + FIELD * bits_of(map), each);
}

inline void read_quote_trials(const Each& each) {
    Draw draw(SEED + 3);
    for (unsigned map = 0; map < 256; map++)
        for (size_t length = 0; length <= 30; length++) read_map_at(draw, static_cast<uint8_t>(map), length, each);
    for (unsigned code = 0; code < 8; code++) {
        const auto map = static_cast<uint8_t>(code);
        for (int i = 0; i < 2000; i++) each(draw.reading(draw.good_record(map, bits_of(map))));
        for (int i = 0; i < 20; i++) damage_each(draw, draw.good_record(map, bits_of(map)), each);
        read_record_limits(draw, map, each);
        read_far_lengths(draw, map, each);
    }
}
