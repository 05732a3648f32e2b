// Wrong ways to write a record and to read one, each with the name of what must notice it.
#pragma once
#include <algorithm>
#include <cstddef>
#include <cstdint>
#include <optional>

#include "field_methods.hpp"

namespace methods {

inline bool always(uint8_t, size_t) { return true; }

// The place of a field where all of them have one.
inline size_t fixed_place(uint8_t, size_t bit) { return 1 + FIELD * bit; }

inline size_t exchanged_place(uint8_t map, size_t bit) { return (map & 3) == 3 && bit < 2 ? packed_place(map, 1 - bit) : packed_place(map, bit); }

// The fields of the higher bits first.
inline size_t place_from_the_back(uint8_t map, size_t bit) {
    size_t place = 1;
    for (size_t higher = bit + 1; higher < VALUES; higher++) place += stands_in(map, higher) ? FIELD : 0;
    return place;
}

inline bool stands_backwards(uint8_t map, size_t bit) { return stands_in(map, 2 - bit); }

inline size_t place_backwards(uint8_t map, size_t bit) {
    size_t place = 1;
    for (size_t lower = 0; lower < bit; lower++) place += stands_backwards(map, lower) ? FIELD : 0;
    return place;
}

inline Recipe all_written() {
    Recipe recipe = with(&Recipe::stands, always);
    recipe.place = fixed_place;
    return recipe;
}

inline Recipe bits_backwards() {
    Recipe recipe = with(&Recipe::stands, stands_backwards);
    recipe.place = place_backwards;
    return recipe;
}

inline size_t standing(uint8_t map) { return (map & 1u) + (map >> 1 & 1u) + (map >> 2 & 1u); }

inline std::optional<int64_t> no_negative_lines(int64_t value, size_t bit) { return bit == 2 && value < 0 ? std::nullopt : std::optional(value); }

// Wrong in which values are judged, and by what limit.
inline WayList wrong_judgements() {
    auto judged = [](bool (*other)(uint8_t map, size_t bit)) { return by(write_quote_by, with(&Recipe::judged, other)); };
    auto over = [](bool (*other)(int64_t value, size_t bytes)) { return by(write_quote_by, with(&Recipe::over, other)); };
    auto size = [](uint64_t (*other)(int64_t value)) { return by(write_quote_by, with(&Recipe::size, other)); };
    return named_ways<Way>("answer", {
        {"absent values judged", judged(always)},
        {"absent open lines judged", judged([](uint8_t map, size_t bit) { return bit == 2 || stands_in(map, bit); })},
        {"open lines judged by the premium's bit", judged([](uint8_t map, size_t bit) { return stands_in(map, std::min(bit, size_t{1})); })},
        {"the first standing value alone judged", judged([](uint8_t map, size_t bit) { return stands_in(map, bit) && (map & ((1u << bit) - 1)) == 0; })},
        {"open lines not judged", judged([](uint8_t map, size_t bit) { return bit < 2 && stands_in(map, bit); })},
        {"no value judged", judged([](uint8_t, size_t) { return false; })},
        {"10^13 written in a record", by(write_quote_by, with_limit(FIELD, limit_of(FIELD) + 1))},
        {"10^13 - 1 refused in a record", by(write_quote_by, with_limit(FIELD, limit_of(FIELD) - 1))},
        {"12 digits in a record", by(write_quote_by, with_limit(FIELD, limit_of(FIELD) / 10))},
        {"negatives refused in a record", over([](int64_t value, size_t) { return value < 0; })},
        {"i64's least value taken for 0 in a record", size([](int64_t value) { return value == INT64_MIN ? 0 : Recipe{}.size(value); })},
        {"sums of the values' sizes judged", call_then(write_quote_by_library, [](uint64_t answer, Lending& lent, const Lending& before) {
             uint64_t sum = 0;
             for (size_t bit = 0; bit < VALUES; bit++) sum += stands_in(before.map, bit) ? Recipe{}.size(before.values[bit]) : 0;
             if (is_accepted(answer) && sum >= limit_of(FIELD)) lent = before;
             return is_accepted(answer) && sum >= limit_of(FIELD) ? c_refusal(24) : answer;
         })},
    });
}

// Wrong in which maps are good, in writing or in reading.
inline WayList wrong_maps(uint64_t (*call)(const Recipe&, Lending&)) {
    auto map = [call](bool (*other)(uint8_t map)) { return by(call, with(&Recipe::map, other)); };
    return named_ways<Way>("answer", {
        {"bit 3 ignored", map([](uint8_t map) { return map < 16; })},
        {"bit 7 ignored", map([](uint8_t map) { return map % 128 < 8; })},
        {"map 8 allowed", map([](uint8_t map) { return map <= 8; })},
        {"higher bits ignored", map([](uint8_t) { return true; })},
        {"map 0 refused", map([](uint8_t map) { return map - 1u < 7; })},
        {"map 7 refused", map([](uint8_t map) { return map < 7; })},
    });
}

// Wrong in the map that is written.
inline WayList wrong_maps_written() {
    auto map_byte = [](uint8_t (*other)(uint8_t map)) { return by(write_quote_by, with(&Recipe::map_byte, other)); };
    return named_ways<Way>("byte", {
        {"the map not written", call_then_where(write_quote_by_library, is_accepted, [](Lending& lent, const Lending& before) {
             lent.lent.data()[0] = before.lent.part(0, 1)[0];
         })},
        {"map 7 always written", map_byte([](uint8_t) { return uint8_t{7}; })},
        {"the number of fields for the map written", map_byte([](uint8_t map) { return static_cast<uint8_t>(standing(map)); })},
        {"the map in the high half written", map_byte([](uint8_t map) { return static_cast<uint8_t>(16 * map); })},
    });
}

// Wrong in where fields stand and what is in them.
inline WayList wrong_fields_in_records() {
    auto place = [](size_t (*other)(uint8_t map, size_t bit)) { return by(write_quote_by, with(&Recipe::place, other)); };
    WayList list = named_ways<Way>("byte", {
        {"base and premium exchanged in writing", place(exchanged_place)},
        {"open lines first in writing", place(place_from_the_back)},
        {"the bits from the back in writing", by(write_quote_by, bits_backwards())},
        {"low half first in a record", by(write_quote_by, with(&Recipe::arranged, low_half_first))},
        {"F written in a record", by(write_quote_by, with(&Recipe::sign_half, plus_by_f))},
        {"zero written with D in a record", by(write_quote_by, with(&Recipe::sign_half, zero_by_d))},
        {"zero with D behind a negative in a record", by(write_quote_by, sign_kept())},
    });
    append(list, named_ways<Way>("answer", {
        {"fields at fixed places in writing", place(fixed_place)},
        {"absent values written", by(write_quote_by, all_written())},
    }));
    return list;
}

// Wrong in the room, the order of refusals, what is written beside the record, and the answer.
inline WayList wrong_record_writes() {
    auto call = write_quote_by_library;
    auto fits = [](bool (*other)(size_t need, size_t room)) { return by(write_quote_by, with(&Recipe::fits, other)); };
    WayList list = named_ways<Way>("answer", {
        {"22 bytes of room always asked for", fits([](size_t, size_t room) { return room >= RECORD; })},
        {"a byte of room too much asked for in a record", fits([](size_t need, size_t room) { return need < room; })},
        {"a byte of room too few accepted in a record", fits([](size_t need, size_t room) { return need <= room + 1; })},
        {"the room of a record in 8 bits", fits([](size_t need, size_t room) { return need <= room % 256; })},
        {"room over 24 refused", fits([](size_t need, size_t room) { return need <= room && room <= 24; })},
        {"room for the fields alone", fits([](size_t need, size_t room) { return need == 1 || need - 1 <= room; })},
        {"10 before 24 in a record", by(write_quote_by, in_order(23, 10, 24))},
        {"24 before 23 in a record", by(write_quote_by, in_order(24, 23, 10))},
        {"10 before 23 in a record", by(write_quote_by, in_order(10, 23, 24))},
        {"the map answered in writing", call_then(call, [](uint64_t answer, Lending&, const Lending& before) {
             return is_accepted(answer) ? before.map : answer;
         })},
        {"the fields' bytes alone answered", answered(call, [](uint64_t answer) { return is_accepted(answer) ? answer - 1 : answer; })},
    });
    append(list, named_ways<Way>("byte", {
        {"a byte behind the record written", call_then_where(call, is_accepted, mark_at([](const Lending& lent) { return 1 + FIELD * standing(lent.map); }))},
        {"a byte behind the room of a record written", call_then_where(call, is_accepted, mark_at([](const Lending& lent) { return lent.lent.length; }))},
        {"the room of a record aligned down to 8", aligned_down(call, 8)},
        {"the map written and refused", call_then_where(call, is_refused, [](Lending& lent, const Lending&) {
             if (lent.lent.length > 0) lent.lent.data()[0] = lent.map;
         })},
        {"a byte of the base changed and refused by 24", call_then_where(call, is_24, [](Lending& lent, const Lending&) {
             if (lent.lent.length > FIELD && stands_in(lent.map, 0)) lent.lent.data()[FIELD] ^= 1;
         })},
    }));
    return list;
}

inline WayList wrong_written_records() {
    WayList all = wrong_judgements();
    for (const WayList& more : {wrong_maps(write_quote_by), wrong_maps_written(), wrong_fields_in_records(), wrong_record_writes()}) append(all, more);
    return all;
}

// Wrong in the map that is answered, and in the length.
inline WayList wrong_maps_read() {
    auto map_byte = [](uint8_t (*other)(uint8_t map)) { return by(read_quote_by, with(&Recipe::map_byte, other)); };
    auto length = [](bool (*other)(size_t length, size_t due)) { return by(read_quote_by, with(&Recipe::record_length, other)); };
    return named_ways<Way>("answer", {
        {"0 answered for the map", map_byte([](uint8_t) { return uint8_t{0}; })},
        {"the number of fields answered", map_byte([](uint8_t map) { return static_cast<uint8_t>(standing(map)); })},
        {"a surplus byte accepted", length([](size_t length, size_t due) { return length == due || length == due + 1; })},
        {"any surplus accepted", length([](size_t length, size_t due) { return length >= due; })},
        {"a surplus field accepted", length([](size_t length, size_t due) { return length == due || length == due + FIELD; })},
        {"a missing byte accepted", length([](size_t length, size_t due) { return length == due || (length > 0 && length + 1 == due); })},
        {"no byte read as map 0", call_then(read_quote_by_library, [](uint64_t answer, Lending&, const Lending& before) {
             return before.lent.length == 0 ? 0 : answer;
         })},
        {"the length of a record in 8 bits", read_length(read_quote_by, [](size_t length) { return length % 256; })},
        {"the length of a record in 16 bits", read_length(read_quote_by, [](size_t length) { return length % 65536; })},
        {"a record aligned down to 2", aligned_down(read_quote_by_library, 2)},
        {"36 bytes of a map with one bit read", length([](size_t length, size_t due) { return length == due || (length == 36 && due == 8); })},
        {"one byte of any map read", length([](size_t length, size_t due) { return length == due || length == 1; })},
    });
}

// Wrong in the values.
inline WayList wrong_values_read() {
    auto place = [](size_t (*other)(uint8_t map, size_t bit)) { return by(read_quote_by, with(&Recipe::place, other)); };
    auto part = [](std::optional<int64_t> (*other)(int64_t value, size_t bit)) { return by(read_quote_by, with(&Recipe::part, other)); };
    auto change = [](void (*other)(Lending& lent, const Lending& before)) { return call_then_where(read_quote_by_library, is_accepted, other); };
    return named_ways<Way>("value", {
        {"base and premium exchanged in reading", place(exchanged_place)},
        {"open lines first in reading", place(place_from_the_back)},
        {"fields at fixed places in reading", place(fixed_place)},
        {"base and premium written to each other's places", change([](Lending& lent, const Lending&) {
             std::swap(lent.places.at(0), lent.places.at(1));
         })},
        {"open lines and premium written to each other's places", change([](Lending& lent, const Lending&) {
             std::swap(lent.places.at(1), lent.places.at(2));
         })},
        {"F read as minus in a record", by(read_quote_by, with_sign(15, Sign::MINUS))},
        {"D read as plus in open lines", part([](int64_t value, size_t bit) -> std::optional<int64_t> { return bit == 2 && value < 0 ? -value : value; })},
        {"an absent value's place left", change([](Lending& lent, const Lending& before) {
             for (size_t bit = 0; bit < VALUES; bit++)
                 if (!stands_in(lent.lent.part(0, 1)[0], bit)) lent.places.at(bit) = before.places.at(bit);
         })},
        {"the place of absent open lines left where it is over 0", change([](Lending& lent, const Lending& before) {
             if (!stands_in(lent.lent.part(0, 1)[0], 2)) lent.places.at(2) = std::max(before.places.at(2), int64_t{0});
         })},
        {"2^32 read as 0 in the premium", change([](Lending& lent, const Lending&) {
             if (lent.places.at(1) == int64_t{1} << 32) lent.places.at(1) = 0;
         })},
        {"an absent value read as -1", change([](Lending& lent, const Lending&) {
             for (size_t bit = 0; bit < VALUES; bit++) lent.places.at(bit) = stands_in(lent.lent.part(0, 1)[0], bit) ? lent.places.at(bit) : -1;
         })},
        {"a single value read as the base", change([](Lending& lent, const Lending&) {
             if (standing(lent.lent.part(0, 1)[0]) == 1) lent.places.at(0) = lent.places.at(0) + lent.places.at(1) + lent.places.at(2);
         })},
        {"open lines in 32 bits", change([](Lending& lent, const Lending&) { lent.places.at(2) = static_cast<int32_t>(lent.places.at(2)); })},
    });
}

// Wrong in what is refused of a field.
inline WayList wrong_parts_read() {
    auto part = [](std::optional<int64_t> (*other)(int64_t value, size_t bit)) { return by(read_quote_by, with(&Recipe::part, other)); };
    auto digit = [](bool (*other)(unsigned half, size_t place)) { return by(read_quote_by, with(&Recipe::digit, other)); };
    return named_ways<Way>("answer", {
        {"F refused in a record", by(read_quote_by, with_sign(15, Sign::NONE))},
        {"A read as plus in a record", by(read_quote_by, with_sign(10, Sign::PLUS))},
        {"open lines below zero refused", part(no_negative_lines)},
        {"a base below zero refused", part([](int64_t value, size_t bit) { return bit == 0 && value < 0 ? std::nullopt : std::optional(value); })},
        {"minus zero refused in a record", by(read_quote_by, with(&Recipe::value, without_minus_zero))},
        {"a low half of 10 read as a digit in a record", digit([](unsigned half, size_t place) { return half < 10 || (half == 10 && place % 2 == 1); })},
        {"the first half not looked at in a record", digit([](unsigned half, size_t place) { return half < 10 || place == 0; })},
        {"a record's field of all zeros refused", part([](int64_t value, size_t) { return value == 0 ? std::nullopt : std::optional(value); })},
        {"bytes behind the record judged", call_then(read_quote_by_library, [](uint64_t answer, Lending& lent, const Lending& before) {
             const bool bad = is_accepted(answer) && !value_by({}, before.lent.part(before.lent.length, FIELD));
             if (bad) lent = before;
             return bad ? c_refusal(23) : answer;
         })},
        {"10 for a byte too few", call_then(read_quote_by_library, [](uint64_t answer, Lending&, const Lending& before) {
             const size_t length = before.lent.length;
             return length > 0 && length == FIELD * standing(before.lent.part(0, 1)[0]) ? c_refusal(10) : answer;
         })},
    });
}

// The base where its field is good, though the record is refused.
inline void leave_base(Lending& lent, const Lending&) {
    if (!stands_in(lent.lent.part(0, 1)[0], 0) || lent.lent.length <= FIELD) return;
    const std::optional<int64_t> base = value_by({}, lent.lent.part(1, FIELD));
    if (base) lent.places.at(0) = *base;
}

// Wrong in what is left.
inline WayList wrong_record_reads() {
    auto call = read_quote_by_library;
    WayList list = named_ways<Way>("value", {
        {"zeros left and refused", call_then_where(call, is_refused, [](Lending& lent, const Lending&) {
             for (size_t bit = 0; bit < VALUES; bit++) lent.places.at(bit) = 0;
         })},
        {"a good base left and refused", call_then_where(call, is_refused, leave_base)},
        {"a number between the values written", call_then_where(call, is_accepted, [](Lending& lent, const Lending&) { lent.places.numbers[4] = 0; })},
    });
    append(list, named_ways<Way>("byte", {
        {"the map cleared where it is lent", call_then_where(call, is_accepted, [](Lending& lent, const Lending&) { lent.lent.data()[0] = 0; })},
        {"a bad record cleared", call_then_where(call, is_refused, clear_lent)},
    }));
    return list;
}

inline WayList wrong_read_records() {
    WayList all = wrong_maps(read_quote_by);
    for (const WayList& more : {wrong_maps_read(), wrong_values_read(), wrong_parts_read(), wrong_record_reads()}) append(all, more);
    return all;
}

}  // namespace methods
