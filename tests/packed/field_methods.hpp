// Wrong ways to write a field and to read one, each with the name of what must notice it.
#pragma once
#include <algorithm>
#include <cstddef>
#include <cstdint>
#include <limits>
#include <memory>
#include <optional>
#include <string>

#include "../support/call_then.hpp"
#include "../support/named.hpp"
#include "recipe.hpp"

namespace methods {

using WayList = NamedList<Way>;

inline bool is_refused(uint64_t answer) { return tariff_kind(answer) == TARIFF_REFUSED; }
inline bool is_accepted(uint64_t answer) { return tariff_kind(answer) == TARIFF_ACCEPTED; }
inline bool is_24(uint64_t answer) { return answer == c_refusal(24); }

inline Bytes low_half_first(Bytes field) {
    for (uint8_t& byte : field) byte = static_cast<uint8_t>(byte << 4 | byte >> 4);
    return field;
}

inline Bytes from_the_back(Bytes field) {
    std::reverse(field.begin(), field.end());
    return field;
}

// The sign that this half byte stands for is another one.
inline Recipe with_sign(unsigned other, Sign sign) {
    return with(&Recipe::sign, [=](unsigned half) { return half == other ? sign : Recipe{}.sign(half); });
}

inline unsigned plus_by_f(int64_t value) { return value < 0 ? 13 : 15; }
inline unsigned zero_by_d(int64_t value) { return value <= 0 ? 13 : 12; }

inline std::optional<int64_t> without_minus_zero(int64_t size, Sign sign) {
    return size == 0 && sign == Sign::MINUS ? std::nullopt : Recipe{}.value(size, sign);
}

// The refusals in another order.
inline Recipe in_order(uint64_t first, uint64_t second, uint64_t third) {
    return with(&Recipe::refusal, [=](const Faults& faults) -> uint64_t {
        for (uint64_t number : {first, second, third})
            if (number == 23 ? faults.form : number == 24 ? faults.value : faults.room) return number;
        return 0;
    });
}

// The limit of one length is another.
inline Recipe with_limit(size_t bytes, uint64_t limit) {
    return with(&Recipe::limit, [=](size_t other) { return other == bytes ? limit : limit_of(other); });
}

// Of a value that is over them the last digits.
inline Recipe cut_off() {
    return with(&Recipe::refusal, [](const Faults& faults) { return faults.form ? 23 : faults.room ? 10 : 0; });
}

// Zero has the sign of the value before it.
inline Recipe sign_kept() {
    auto last = std::make_shared<unsigned>(12);
    return with(&Recipe::sign_half, [last](int64_t value) { return *last = value == 0 ? *last : value < 0 ? 13 : 12; });
}

// Wrong in the sign of a field that is written.
inline WayList wrong_signs_written() {
    auto half = [](unsigned (*other)(int64_t value)) { return by(write_field_by, with(&Recipe::sign_half, other)); };
    return named_ways<Way>("byte", {
        {"F written for plus", half(plus_by_f)},
        {"F written for zero", half([](int64_t value) { return value < 0 ? 13u : value == 0 ? 15u : 12u; })},
        {"zero written with D", half(zero_by_d)},
        {"zero written with D after a negative", by(write_field_by, sign_kept())},
        {"C and D exchanged", half([](int64_t value) { return value < 0 ? 12u : 13u; })},
        {"minus never written", half([](int64_t) { return 12u; })},
        {"A and B for the signs", half([](int64_t value) { return value < 0 ? 11u : 10u; })},
    });
}

// Wrong in the digits and in where they stand.
inline WayList wrong_digits_written() {
    return named_ways<Way>("byte", {
        {"low half first in writing", by(write_field_by, with(&Recipe::arranged, low_half_first))},
        {"lowest byte first in writing", by(write_field_by, with(&Recipe::arranged, from_the_back))},
    });
}

// Wrong in the range of a value, at any length.
inline WayList wrong_ranges() {
    auto over = [](bool (*other)(int64_t value, size_t bytes)) { return by(write_field_by, with(&Recipe::over, other)); };
    auto size = [](uint64_t (*other)(int64_t value)) { return by(write_field_by, with(&Recipe::size, other)); };
    return named_ways<Way>("answer", {
        {"i64's least value taken for 0", size([](int64_t value) { return value == std::numeric_limits<int64_t>::min() ? 0 : Recipe{}.size(value); })},
        {"sizes in 32 bits", size([](int64_t value) { return Recipe{}.size(value) & 0xffffffff; })},
        {"negatives by their complement", size([](int64_t value) { return value < 0 ? static_cast<uint64_t>(~value) : static_cast<uint64_t>(value); })},
        {"negatives over the digits", over([](int64_t value, size_t) { return value < 0; })},
        {"an even number of digits", over([](int64_t value, size_t bytes) { return Recipe{}.size(value) >= limit_of(bytes) / 10; })},
        {"digits cut off", by(write_field_by, cut_off())},
    });
}

// Wrong in the limit of one length alone.
inline WayList wrong_limits() {
    WayList list;
    for (size_t bytes = 1; bytes <= FIELD; bytes++) {
        const std::string behind = " at length " + std::to_string(bytes);
        list.push_back({"one too many" + behind, "answer", by(write_field_by, with_limit(bytes, limit_of(bytes) + 1))});
        list.push_back({"one too few" + behind, "answer", by(write_field_by, with_limit(bytes, limit_of(bytes) - 1))});
        list.push_back({"a digit too few" + behind, "answer", by(write_field_by, with_limit(bytes, limit_of(bytes) / 10))});
        list.push_back({"a digit too many" + behind, "answer", by(write_field_by, with_limit(bytes, 10 * limit_of(bytes)))});
    }
    return list;
}

// Wrong in the length, the room and the order of refusals.
inline WayList wrong_rooms() {
    auto length = [](bool (*other)(size_t bytes)) { return by(write_field_by, with(&Recipe::length, other)); };
    auto taken = [](size_t (*other)(size_t bytes)) { return by(write_field_by, with(&Recipe::taken, other)); };
    auto fits = [](bool (*other)(size_t need, size_t room)) { return by(write_field_by, with(&Recipe::fits, other)); };
    return named_ways<Way>("answer", {
        {"length 0 written", length([](size_t bytes) { return bytes <= 7; })},
        {"length 8 written", length([](size_t bytes) { return bytes - 1 < 8; })},
        {"length 7 refused", length([](size_t bytes) { return bytes - 1 < 6; })},
        {"length 1 refused", length([](size_t bytes) { return bytes - 2 < 6; })},
        {"lengths over 7 as 7", taken([](size_t bytes) { return std::min(bytes, FIELD); })},
        {"the length in 8 bits", taken([](size_t bytes) { return bytes & 0xff; })},
        {"length 16 as 7", taken([](size_t bytes) { return bytes == 16 ? FIELD : bytes; })},
        {"the length in 32 bits", taken([](size_t bytes) { return bytes & 0xffffffff; })},
        {"the length in 63 bits", taken([](size_t bytes) { return bytes & SIZE_MAX >> 1; })},
        {"a byte of room too much asked for", fits([](size_t need, size_t room) { return need < room; })},
        {"a byte of room too few accepted", fits([](size_t need, size_t room) { return need <= room + 1; })},
        {"any room accepted", fits([](size_t, size_t) { return true; })},
        {"the room in 8 bits", fits([](size_t need, size_t room) { return need <= room % 256; })},
        {"the room in 16 bits", fits([](size_t need, size_t room) { return need <= room % 65536; })},
        {"seven bytes of room always asked for", fits([](size_t, size_t room) { return room >= 7; })},
        {"10 before 24", by(write_field_by, in_order(23, 10, 24))},
        {"24 before 23", by(write_field_by, in_order(24, 23, 10))},
        {"10 before 23", by(write_field_by, in_order(10, 23, 24))},
    });
}

// A changed answer.
inline Way answered(uint64_t (*call)(Lending&), uint64_t (*change)(uint64_t answer)) {
    return call_then(call, [change](uint64_t answer, Lending&, const Lending&) { return change(answer); });
}

// The call at the lent address aligned down to so many bytes.
inline Way aligned_down(uint64_t (*call)(Lending&), size_t bytes) {
    return [=](Lending& lent) {
        const size_t start = lent.lent.start;
        lent.lent.start -= start % bytes;
        const uint64_t answer = call(lent);
        lent.lent.start = start;
        return answer;
    };
}

inline void clear_lent(Lending& lent, const Lending&) { std::fill_n(lent.lent.at(0), lent.lent.length, uint8_t{0}); }

inline void mark_first(Lending& lent, const Lending&) {
    if (lent.lent.length > 0) lent.lent.data()[0] ^= 1;
}

// One byte.
template <class PlaceOf>
auto mark_at(PlaceOf place_of) {
    return [place_of](Lending& lent, const Lending&) { *lent.lent.at(place_of(lent)) ^= 0x55; };
}

inline void write_what_fits(Lending& lent, const Lending&) {
    if (lent.bytes < 1 || lent.bytes > FIELD) return;
    const Bytes field = field_by({}, lent.values[0], lent.bytes);
    std::copy_n(field.begin(), std::min(field.size(), lent.lent.length), lent.lent.at(0));
}

// Wrong in what is written beside the field, and in the answer.
inline WayList wrong_field_writes() {
    auto call = write_field_by_library;
    WayList list = named_ways<Way>("byte", {
        {"the rest of the room cleared", call_then_where(call, is_accepted, [](Lending& lent, const Lending&) {
             std::fill_n(lent.lent.at(lent.bytes), lent.lent.length - lent.bytes, uint8_t{0});
         })},
        {"the last byte of a room over 12 cleared", call_then_where(call, is_accepted, [](Lending& lent, const Lending&) {
             if (lent.lent.length > 12) *lent.lent.at(lent.lent.length - 1) = 0;
         })},
        {"a byte behind the field written", call_then_where(call, is_accepted, mark_at([](const Lending& lent) { return lent.bytes; }))},
        {"a byte behind the room written", call_then_where(call, is_accepted, mark_at([](const Lending& lent) { return lent.lent.length; }))},
        {"a byte in front written", call_then_where(call, is_accepted, mark_at([](const Lending&) { return size_t{0} - 1; }))},
        {"the room aligned down to 8", aligned_down(call, 8)},
        {"nothing written", call_then_where(call, is_accepted, [](Lending& lent, const Lending& before) { lent = before; })},
        {"the room cleared and refused", call_then_where(call, is_refused, clear_lent)},
        {"what fits written and refused", call_then_where(call, is_refused, write_what_fits)},
        {"the first byte written and refused by 24", call_then_where(call, is_24, mark_first)},
    });
    append(list, named_ways<Way>("answer", {
        {"0 for so many bytes", answered(call, [](uint64_t answer) { return is_accepted(answer) ? 0 : answer; })},
        {"digits for bytes", answered(call, [](uint64_t answer) { return is_accepted(answer) ? 2 * answer - 1 : answer; })},
        {"23 for 24", answered(call, [](uint64_t answer) { return answer == c_refusal(24) ? c_refusal(23) : answer; })},
        {"24 for 10", answered(call, [](uint64_t answer) { return answer == c_refusal(10) ? c_refusal(24) : answer; })},
        {"false for a refusal in writing", answered(call, [](uint64_t answer) { return is_refused(answer) ? answer + (uint64_t{1} << 32) : answer; })},
    }));
    return list;
}

inline WayList wrong_written_fields() {
    WayList all = wrong_signs_written();
    for (const WayList& more : {wrong_digits_written(), wrong_ranges(), wrong_limits(), wrong_rooms(), wrong_field_writes()}) append(all, more);
    return all;
}

// Wrong in the sign of a field that is read.
inline WayList wrong_signs_read() {
    auto sign = [](unsigned half, Sign other) { return by(read_field_by, with_sign(half, other)); };
    auto value = [](std::optional<int64_t> (*other)(int64_t size, Sign sign)) { return by(read_field_by, with(&Recipe::value, other)); };
    WayList list = named_ways<Way>("value", {
        {"F read as minus", sign(15, Sign::MINUS)},
        {"D read as plus", sign(13, Sign::PLUS)},
        {"C read as minus", sign(12, Sign::MINUS)},
        {"a minus by the complement", value([](int64_t size, Sign sign) -> std::optional<int64_t> { return sign == Sign::MINUS ? ~size : size; })},
        {"a minus zero read as -1", value([](int64_t size, Sign sign) { return size == 0 && sign == Sign::MINUS ? -1 : Recipe{}.value(size, sign); })},
    });
    append(list, named_ways<Way>("answer", {
        {"F refused", sign(15, Sign::NONE)},
        {"D refused", sign(13, Sign::NONE)},
        {"A read as plus", sign(10, Sign::PLUS)},
        {"B read as minus", sign(11, Sign::MINUS)},
        {"E read as plus", sign(14, Sign::PLUS)},
        {"a digit for the sign read as plus", by(read_field_by, with(&Recipe::sign, [](unsigned half) {
             return half < 10 ? Sign::PLUS : Recipe{}.sign(half);
         }))},
        {"0 for the sign read as plus", sign(0, Sign::PLUS)},
        {"minus zero refused", value(without_minus_zero)},
    }));
    return list;
}

// Wrong in the digits.
inline WayList wrong_digits_read() {
    auto digit = [](bool (*other)(unsigned half, size_t place)) { return by(read_field_by, with(&Recipe::digit, other)); };
    auto value = [](int64_t (*other)(int64_t value)) {
        return by(read_field_by, with(&Recipe::value, [other](int64_t size, Sign sign) { return std::optional(other(*Recipe{}.value(size, sign))); }));
    };
    WayList list = named_ways<Way>("answer", {
        {"a low half of 10 read as a digit", digit([](unsigned half, size_t place) { return half < 10 || (half == 10 && place % 2 == 1); })},
        {"a high half of 10 read as a digit", digit([](unsigned half, size_t place) { return half < 10 || (half == 10 && place % 2 == 0); })},
        {"a low half not looked at", digit([](unsigned half, size_t place) { return half < 10 || place % 2 == 1; })},
        {"a high half of F read as a digit", digit([](unsigned half, size_t place) { return half < 10 || (half == 15 && place % 2 == 0); })},
        {"the first half not looked at", digit([](unsigned half, size_t place) { return half < 10 || place == 0; })},
        {"the last digit of seven bytes not looked at", digit([](unsigned half, size_t place) { return half < 10 || place == 12; })},
        {"a 9 refused", digit([](unsigned half, size_t) { return half < 9; })},
        {"a thirteenth digit refused", by(read_field_by, with(&Recipe::value, [](int64_t size, Sign sign) {
             return size < 1000000000000 ? Recipe{}.value(size, sign) : std::nullopt;
         }))},
        {"low half first in reading", by(read_field_by, with(&Recipe::arranged, low_half_first))},
    });
    append(list, named_ways<Way>("value", {
        {"values in 32 bits", value([](int64_t value) { return int64_t{static_cast<int32_t>(value)}; })},
        {"twelve digits alone read", value([](int64_t value) { return value % 1000000000000; })},
        {"values from 2^40 on one too many", value([](int64_t value) { return value >> 40 > 0 ? value + 1 : value; })},
    }));
    return list;
}

// A field or a record of another length is read in place of that which is lent.
inline Way read_length(uint64_t (*call)(const Recipe&, Lending&), size_t (*other_length)(size_t length)) {
    return [=](Lending& lent) {
        Lending other = lent;
        other.lent.length = other_length(lent.lent.length);
        const uint64_t answer = call({}, other);
        lent.places = other.places;
        return answer;
    };
}

// Wrong in the length.
inline WayList wrong_lengths_read() {
    auto call = read_field_by_library;
    auto length = [](bool (*other)(size_t bytes)) { return by(read_field_by, with(&Recipe::length, other)); };
    return named_ways<Way>("answer", {
        {"no byte read as 0", length([](size_t bytes) { return bytes <= 7; })},
        {"eight bytes read", length([](size_t bytes) { return bytes - 1 < 8; })},
        {"lengths 1 to 9 read", length([](size_t bytes) { return bytes > 0 && bytes < 10; })},
        {"seven bytes refused", length([](size_t bytes) { return bytes - 1 < 6; })},
        {"one byte refused", length([](size_t bytes) { return bytes - 2 < 6; })},
        {"the first seven of more bytes read", read_length(read_field_by, [](size_t bytes) { return std::min(bytes, FIELD); })},
        {"the length of a field in 8 bits", read_length(read_field_by, [](size_t bytes) { return bytes % 256; })},
        {"the length of a field in 16 bits", read_length(read_field_by, [](size_t bytes) { return bytes % 65536; })},
        {"no byte told by NULL alone", call_then(call, [](uint64_t answer, Lending& lent, const Lending&) {
             return lent.lent.length == 0 && lent.lent.data() != nullptr ? 0 : answer;
         })},
        {"24 for eight bytes", call_then(call, [](uint64_t answer, Lending&, const Lending& before) {
             return before.lent.length == 8 ? c_refusal(24) : answer;
         })},
    });
}

// Wrong in what is left, and in the answer.
inline WayList wrong_reads() {
    auto call = read_field_by_library;
    WayList list{{"1 for a field that is read", "answer", answered(call, [](uint64_t answer) { return answer == 0 ? 1 : answer; })}};
    append(list, named_ways<Way>("value", {
        {"0 left and refused", call_then_where(call, is_refused, [](Lending& lent, const Lending&) { lent.places.at(0) = 0; })},
        {"a value over 0 cleared and refused", call_then_where(call, is_refused, [](Lending& lent, const Lending&) {
             lent.places.at(0) = std::min(lent.places.at(0), int64_t{0});
         })},
        {"zero not left", call_then_where(call, is_accepted, [](Lending& lent, const Lending& before) {
             if (lent.places.at(0) == 0) lent.places = before.places;
         })},
        {"a number behind the value written", call_then_where(call, is_accepted, [](Lending& lent, const Lending&) { lent.places.numbers[2] = 0; })},
    }));
    append(list, named_ways<Way>("byte", {
        {"F made C where it is lent", call_then_where(call, is_accepted, [](Lending& lent, const Lending&) {
             uint8_t& last = lent.lent.data()[lent.lent.length - 1];
             if (last % 16 == 15) last = static_cast<uint8_t>(last - 3);
         })},
        {"a bad field cleared", call_then_where(call, is_refused, clear_lent)},
    }));
    return list;
}

inline WayList wrong_read_fields() {
    WayList all = wrong_signs_read();
    for (const WayList& more : {wrong_digits_read(), wrong_lengths_read(), wrong_reads()}) append(all, more);
    return all;
}

}  // namespace methods
