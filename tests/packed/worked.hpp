// Calls whose answers, values and bytes were worked out by hand.
#pragma once
#include <algorithm>
#include <cstddef>
#include <cstdint>
#include <limits>
#include <string>
#include <vector>

#include "due.hpp"

struct Worked {
    std::string name;
    Lending lent;
    uint64_t answer;
    Lending left;  // what is lent, afterwards
};

using Worklist = std::vector<Worked>;

inline const uint64_t BAD = c_refusal(23), TOO_LARGE = c_refusal(24), NO_ROOM = c_refusal(10);

inline LentBytes lent_bytes(const Bytes& bytes, size_t length) {
    LentBytes lent;
    lent.memory.assign(2 * LentBytes::GUARD + std::max(bytes.size(), length), 0xa5);
    lent.length = length;
    std::copy(bytes.begin(), bytes.end(), lent.at(0));
    return lent;
}

// Accepted: the bytes are written.
inline Worked worked_write(const std::string& name, Lending lent, size_t room, const std::string& text) {
    lent.lent = lent_bytes({}, room);
    Lending left = lent;
    left.lent = lent_bytes(bytes_of(text), room);
    return {name, lent, text.size() / 2, left};
}

inline Worked refused_write(const std::string& name, Lending lent, size_t room, uint64_t answer) {
    lent.lent = lent_bytes({}, room);
    return {name, lent, answer, lent};
}

inline Worked refused_read(const std::string& text) {
    Lending lent;
    lent.lent = lent_bytes(bytes_of(text), text.size() / 2);
    return {text, lent, BAD, lent};
}

inline Worked read_value(const std::string& text, int64_t value) {
    Worked row = refused_read(text);
    row.answer = 0;
    row.left.places.at(0) = value;
    return row;
}

inline Worked read_record(const std::string& text, uint64_t map, const Values& values) {
    Worked row = refused_read(text);
    row.answer = map;
    for (size_t bit = 0; bit < VALUES; bit++) row.left.places.at(bit) = values[bit];
    return row;
}

inline Worklist worked_written_fields() {
    const int64_t least = std::numeric_limits<int64_t>::min();
    return {
        worked_write("123 in 2", {{123}, 2}, 2, "123C"),
        worked_write("-12,345 in 7", {{-12345}, 7}, 7, "0000000012345D"),
        worked_write("0 in 1", {{0}, 1}, 1, "0C"),
        worked_write("9 in 1", {{9}, 1}, 1, "9C"),
        worked_write("-9 in 1", {{-9}, 1}, 4, "9D"),
        worked_write("999 in 2", {{999}, 2}, 3, "999C"),
        worked_write("10^12 in 7", {{1000000000000}, 7}, 7, "1000000000000C"),
        worked_write("-10^12 in 7", {{-1000000000000}, 7}, 7, "1000000000000D"),
        worked_write("10^13 - 1 in 7", {{9999999999999}, 7}, 7, "9999999999999C"),
        refused_write("10 in 1", {{10}, 1}, 1, TOO_LARGE),
        refused_write("10 in 1, no byte lent", {{10}, 1}, 0, TOO_LARGE),
        refused_write("9 in 1, no byte lent", {{9}, 1}, 0, NO_ROOM),
        refused_write("1,000 in 2", {{1000}, 2}, 2, TOO_LARGE),
        refused_write("10^13 in 7", {{10000000000000}, 7}, 7, TOO_LARGE),
        refused_write("-2^63 in 7", {{least}, 7}, 7, TOO_LARGE),
        refused_write("0 in 0", {{0}, 0}, 8, BAD),
        refused_write("0 in 8", {{0}, 8}, 8, BAD),
    };
}

inline Worklist worked_read_fields() {
    Worklist list{
        read_value("0D", 0), read_value("0F", 0), read_value("9F", 9), read_value("0C", 0), read_value("9D", -9), read_value("123C", 123),
        read_value("0000000012345D", -12345), read_value("9999999999999C", 9999999999999), read_value("9999999999999D", -9999999999999),
    };
    for (const char* text : {"0A", "0B", "0E", "00", "AC", "FC", "FF", "1A3C", "", "000000000000000C"}) list.push_back(refused_read(text));
    return list;
}

inline Worklist worked_written_records() {
    const int64_t over = 10000000000000;
    return {
        worked_write("map 7", {{12345, -250, 3}, 0, 7}, 22, "070000000012345C0000000000250D0000000000003C"),
        worked_write("map 2 with 10^13 beside", {{over, -250, over}, 0, 2}, 8, "020000000000250D"),
        worked_write("map 5", {{1, 2, 3}, 0, 5}, 15, "050000000000001C0000000000003C"),
        worked_write("map 0", {{over, over, over}, 0, 0}, 1, "00"),
        refused_write("map 5, 14 bytes lent", {{1, 2, 3}, 0, 5}, 14, NO_ROOM),
        refused_write("map 8", {{1, 2, 3}, 0, 8}, 22, BAD),
        refused_write("map 9 with 10^13, no byte lent", {{over, 0, 0}, 0, 9}, 0, BAD),
        refused_write("map 1 with 10^13, no byte lent", {{over, 0, 0}, 0, 1}, 0, TOO_LARGE),
    };
}

inline Worklist worked_read_records() {
    return {
        read_record("070000000012345C0000000000250D0000000000003C", 7, {12345, -250, 3}),
        read_record("020000000000250D", 2, {0, -250, 0}),
        read_record("050000000000001C0000000000003C", 5, {1, 0, 3}),
        read_record("00", 0, {0, 0, 0}),
        read_record("040000000000005D", 4, {0, 0, -5}),
        read_record("010000000000042F", 1, {42, 0, 0}),
        refused_read("0000"),
        refused_read("08"),
        refused_read("080000000000042C"),
        refused_read("090000000000042C"),
        refused_read("010000000000042A"),
        refused_read(""),
    };
}

inline void compare_row(const Worked& row, const Way& way) {
    Lending left = row.lent;
    const uint64_t answer = way(left);
    compare_left(answer, left, row.answer, row.left);
}

// A row that has become wrong, and how the disagreement begins that must notice it.
struct WrongRow {
    std::string part;
    Worked row;
};

// Another answer, another value at each place and another byte of those that are lent.
inline std::vector<WrongRow> wrong_rows(const Worked& row) {
    Worked answer = row;
    answer.answer++;
    std::vector<WrongRow> list{{"answer", answer}};
    for (size_t place = 0; place < VALUES; place++) {
        list.push_back({"value", row});
        list.back().row.left.places.at(place)++;
    }
    for (size_t i = 0; i < row.lent.lent.length; i++) {
        list.push_back({"byte", row});
        ++*list.back().row.left.lent.at(i);
    }
    return list;
}
