// What K8 asks of a call, by the hexadecimal text of fields and records, which the C library prints and reads; and the comparison with what a call
// answered and left.
#pragma once
#include <algorithm>
#include <bitset>
#include <cstddef>
#include <cstdint>
#include <cstdio>
#include <cstdlib>
#include <optional>
#include <string>

#include "../support/loan.hpp"
#include "lending.hpp"

inline std::string text_of(const Bytes& bytes) {
    std::string text;
    for (uint8_t byte : bytes) {
        char two[3];
        std::snprintf(two, sizeof two, "%02X", unsigned{byte});
        text += two;
    }
    return text;
}

inline Bytes bytes_of(const std::string& text) {
    Bytes bytes;
    for (size_t i = 0; i < text.size(); i += 2) bytes.push_back(static_cast<uint8_t>(std::strtoul(text.substr(i, 2).c_str(), nullptr, 16)));
    return bytes;
}

// Longer than two for each byte where the value has more digits than the field.
inline std::string field_text(int64_t value, size_t bytes) {
    unsigned long long size = value < 0 ? 0 - static_cast<unsigned long long>(value) : static_cast<unsigned long long>(value);
    char text[32];
    std::snprintf(text, sizeof text, "%0*llu%c", static_cast<int>(2 * bytes - 1), size, value < 0 ? 'D' : 'C');
    return text;
}

// None where the field is bad.
inline std::optional<int64_t> value_of(const std::string& text) {
    if (text.empty() || text.size() > 2 * FIELD) return std::nullopt;
    const std::string digits = text.substr(0, text.size() - 1);
    const char sign = text.back();
    if (digits.find_first_not_of("0123456789") != std::string::npos || std::string("CDF").find(sign) == std::string::npos) return std::nullopt;
    return std::strtoll(((sign == 'D' ? "-" : "+") + digits).c_str(), nullptr, 10);
}

inline size_t bits_of(uint8_t map) { return std::bitset<8>(map).count(); }
inline bool stands(uint8_t map, size_t bit) { return std::bitset<8>(map)[bit]; }

// As many bytes as the text has.
inline uint64_t write_text(const std::string& text, LentBytes& room) {
    const Bytes bytes = bytes_of(text);
    if (bytes.size() > room.length) return c_refusal(10);
    std::copy(bytes.begin(), bytes.end(), room.data());
    return bytes.size();
}

inline uint64_t due_of_write_field(Lending& lent) {
    if (lent.bytes == 0 || lent.bytes > FIELD) return c_refusal(23);
    const std::string text = field_text(lent.values[0], lent.bytes);
    return text.size() > 2 * lent.bytes ? c_refusal(24) : write_text(text, lent.lent);
}

inline uint64_t due_of_read_field(Lending& lent) {
    const std::optional<int64_t> value = value_of(text_of(lent.lent.all()));
    if (!value) return c_refusal(23);
    lent.places.at(0) = *value;
    return 0;
}

inline uint64_t due_of_write_quote(Lending& lent) {
    if (lent.map > 7) return c_refusal(23);
    std::string text = text_of({lent.map});
    for (size_t bit = 0; bit < VALUES; bit++)
        if (stands(lent.map, bit)) text += field_text(lent.values[bit], FIELD);
    return text.size() > 2 + 2 * FIELD * bits_of(lent.map) ? c_refusal(24) : write_text(text, lent.lent);
}

inline uint64_t due_of_read_quote(Lending& lent) {
    const Bytes record = lent.lent.all();
    if (record.empty() || record[0] > 7 || record.size() != 1 + FIELD * bits_of(record[0])) return c_refusal(23);
    Values values{};
    std::string text = text_of(record).substr(2);
    for (size_t bit = 0; bit < VALUES; bit++) {
        if (!stands(record[0], bit)) continue;
        const std::optional<int64_t> value = value_of(text.substr(0, 2 * FIELD));
        if (!value) return c_refusal(23);
        values[bit] = *value;
        text.erase(0, 2 * FIELD);
    }
    for (size_t bit = 0; bit < VALUES; bit++) lent.places.at(bit) = values[bit];
    return record[0];
}

// What a call answered and left, and what is due of both. The disagreement begins with the name of what differs.
inline void compare_left(uint64_t answer, const Lending& left, uint64_t due_answer, const Lending& due) {
    compare_number(answer, due_answer, "answer with lent bytes", left.lent.length);
    for (size_t i = 0; i < due.places.numbers.size(); i++)
        expect(left.places.numbers[i] == due.places.numbers[i], "value at or beside place " + std::to_string(i / 2) + " is " +
                                                                    std::to_string(left.places.numbers[i]) + ", must be " +
                                                                    std::to_string(due.places.numbers[i]));
    compare_memory(left.lent.memory, due.lent.memory, "byte of the lent memory");
}

// The call as the disagreement names it, by the first of many bytes.
inline std::string described(const Lending& lent) {
    const size_t length = lent.lent.length;
    std::string text = "; lent " + std::to_string(length) + ": " + text_of(lent.lent.part(0, std::min(length, size_t{40})));
    text += ", map " + std::to_string(lent.map) + ", bytes " + std::to_string(lent.bytes) + ", values";
    for (int64_t value : lent.values) text += " " + std::to_string(value);
    return text;
}

// A call in this way, held to what is due by the other. Answers what was due.
inline uint64_t compare_call(const Lending& before, const Way& way, const Way& due_of) {
    Lending left = before, due = before;
    const uint64_t due_answer = due_of(due), answer = way(left);
    try {
        compare_left(answer, left, due_answer, due);
    } catch (const Disagreement& disagreement) {
        throw Disagreement(disagreement.what() + described(before));
    }
    return due_answer;
}
