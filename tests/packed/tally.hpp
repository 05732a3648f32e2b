// How many calls of each kind were compared; each kind has to be met often enough.
#pragma once
#include <algorithm>
#include <cstddef>
#include <cstdint>
#include <string>
#include <vector>

#include "../support/kinds.hpp"
#include "draw.hpp"

// A call and what is due of it.
using Tally = Kinds<Lending, uint64_t>;

namespace tallies {

using Kind = ::Kind<Lending, uint64_t>;
using L = const Lending&;

template <class Condition>
Kind is_accepted(const std::string& name, Condition condition) {
    return {name, [condition](L lent, uint64_t due) { return tariff_kind(due) == TARIFF_ACCEPTED && condition(lent); }};
}

template <class Condition>
Kind is_refused(const std::string& name, uint64_t number, Condition condition) {
    return {name, [=](L lent, uint64_t due) { return due == c_refusal(number) && condition(lent); }};
}

inline bool any(L) { return true; }

inline bool starts_odd(L lent) { return lent.lent.start % 2 == 1; }

inline std::string lent_text(L lent) { return text_of(lent.lent.all()); }

inline bool ends_with(L lent, char sign) { return lent_text(lent).back() == sign; }

inline bool is_all(L lent, char digit) { return lent_text(lent).find_first_not_of(digit) == 2 * lent.lent.length - 1; }

inline bool is_field_length(L lent) { return lent.lent.length >= 1 && lent.lent.length <= FIELD; }

// The half bytes before the sign that are no digits.
inline long bad_digits(L lent) {
    const std::string text = lent_text(lent);
    return std::count_if(text.begin(), text.end() - 1, [](char half) { return half > '9'; });
}

inline bool has_bad_sign(L lent) { return std::string("CDF").find(lent_text(lent).back()) == std::string::npos; }

inline Tally of_read_fields() {
    auto bad_digit_alone = [](L lent) { return is_field_length(lent) && bad_digits(lent) == 1 && !has_bad_sign(lent); };
    auto bad_at = [=](L lent, size_t parity) { return bad_digit_alone(lent) && lent_text(lent).find_first_not_of("0123456789") % 2 == parity; };
    return Tally({
        is_accepted("read", any),
        is_accepted("with C", [](L lent) { return ends_with(lent, 'C'); }),
        is_accepted("with D", [](L lent) { return ends_with(lent, 'D'); }),
        is_accepted("with F", [](L lent) { return ends_with(lent, 'F'); }),
        is_accepted("minus zero", [](L lent) { return is_all(lent, '0') && ends_with(lent, 'D'); }),
        is_accepted("all nines of 7 bytes", [](L lent) { return is_all(lent, '9') && lent.lent.length == FIELD; }),
        is_refused("refused for no byte", 23, [](L lent) { return lent.lent.length == 0; }),
        is_refused("for no byte and not at NULL", 23, [](L lent) { return lent.lent.length == 0 && !lent.lent.none_as_null; }),
        is_refused("for 8 bytes or more", 23, [](L lent) { return lent.lent.length > FIELD; }),
        is_refused("for more than 2^16", 23, [](L lent) { return lent.lent.length > 1 << 16; }),
        is_refused("for the sign alone", 23, [](L lent) { return is_field_length(lent) && bad_digits(lent) == 0 && has_bad_sign(lent); }),
        is_refused("for a digit in a high half alone", 23, [=](L lent) { return bad_at(lent, 0); }),
        is_refused("for a digit in a low half alone", 23, [=](L lent) { return bad_at(lent, 1); }),
    });
}

// Whether the value would be over the digits of the longest field, too.
inline bool is_over(int64_t value) { return value >= OVER || value <= -OVER; }

inline Tally of_written_fields() {
    return Tally({
        is_accepted("written", any),
        is_accepted("zero", [](L lent) { return lent.values[0] == 0; }),
        is_accepted("below zero", [](L lent) { return lent.values[0] < 0; }),
        is_accepted("all digits taken", [](L lent) { return field_text(lent.values[0], lent.bytes)[0] != '0'; }),
        is_accepted("in more room", [](L lent) { return lent.lent.length > lent.bytes; }),
        is_accepted("in room over 255", [](L lent) { return lent.lent.length > 255; }),
        is_accepted("at an odd address", starts_odd),
        is_refused("refused by 23 for length 0", 23, [](L lent) { return lent.bytes == 0; }),
        is_refused("for length 8", 23, [](L lent) { return lent.bytes == 8; }),
        is_refused("for more", 23, [](L lent) { return lent.bytes > 8; }),
        is_refused("with a value over and no room", 23, [](L lent) { return is_over(lent.values[0]) && lent.lent.length == 0; }),
        is_refused("by 24", 24, any),
        is_refused("with too little room", 24, [](L lent) { return lent.lent.length < lent.bytes; }),
        is_refused("for i64's least value", 24, [](L lent) { return lent.values[0] == LEAST; }),
        is_refused("by 10", 10, any),
        is_refused("for one byte", 10, [](L lent) { return lent.lent.length + 1 == lent.bytes; }),
    });
}

// How many values whose bits stand or not are over the digits.
inline long over_where(L lent, bool standing) {
    long count = 0;
    for (size_t bit = 0; bit < VALUES; bit++) count += stands(lent.map, bit) == standing && is_over(lent.values[bit]);
    return count;
}

inline Tally of_written_records() {
    auto over_alone_at = [](L lent, size_t bit) { return over_where(lent, true) == 1 && stands(lent.map, bit) && is_over(lent.values[bit]); };
    return Tally({
        is_accepted("written", any),
        is_accepted("map 0", [](L lent) { return lent.map == 0; }),
        is_accepted("map 7", [](L lent) { return lent.map == 7; }),
        is_accepted("an absent value over", [](L lent) { return over_where(lent, false) > 0; }),
        is_accepted("an absent i64's least value", [](L lent) { return std::count(lent.values.begin(), lent.values.end(), LEAST) > 0; }),
        is_accepted("in more room", [](L lent) { return lent.lent.length > 1 + FIELD * bits_of(lent.map); }),
        is_accepted("in room over 255", [](L lent) { return lent.lent.length > 255; }),
        is_accepted("at an odd address", starts_odd),
        is_refused("refused by 23", 23, any),
        is_refused("with bit 3 alone above", 23, [](L lent) { return lent.map >> 3 == 1; }),
        is_refused("with bit 7 alone above", 23, [](L lent) { return lent.map >> 3 == 16; }),
        is_refused("with a value over and no room", 23, [](L lent) { return over_where(lent, true) > 0 && lent.lent.length == 0; }),
        is_refused("by 24 for the base alone", 24, [=](L lent) { return over_alone_at(lent, 0); }),
        is_refused("for the premium alone", 24, [=](L lent) { return over_alone_at(lent, 1); }),
        is_refused("for open lines alone", 24, [=](L lent) { return over_alone_at(lent, 2); }),
        is_refused("with no room", 24, [](L lent) { return lent.lent.length == 0; }),
        is_refused("by 10", 10, any),
        is_refused("for one byte", 10, [](L lent) { return lent.lent.length == FIELD * bits_of(lent.map); }),
    });
}

// Behind the map.
inline bool has_half(L lent, char half) { return lent_text(lent).find(half, 2) != std::string::npos; }

inline uint8_t lent_map(L lent) { return lent.lent.part(0, 1)[0]; }

inline size_t record_need(L lent) { return 1 + FIELD * bits_of(lent_map(lent)); }

inline Tally of_read_records() {
    auto is_map = [](L lent) { return lent.lent.length > 0 && lent_map(lent) < 8; };
    auto short_by = [=](L lent, size_t bytes) { return is_map(lent) && lent.lent.length + bytes == record_need(lent); };
    auto long_by = [=](L lent, size_t bytes) { return is_map(lent) && lent.lent.length == record_need(lent) + bytes; };
    auto is_bad_behind = [](L lent) { return !value_of(text_of(lent.lent.part(lent.lent.length, FIELD))); };
    return Tally({
        is_accepted("read", any),
        is_accepted("map 0", [](L lent) { return lent_map(lent) == 0; }),
        is_accepted("map 7", [](L lent) { return lent_map(lent) == 7; }),
        is_accepted("a D", [](L lent) { return has_half(lent, 'D'); }),
        is_accepted("an F", [](L lent) { return has_half(lent, 'F'); }),
        is_accepted("a minus zero", [](L lent) { return lent_text(lent).find("0000000000000D", 2) % (2 * FIELD) == 2; }),
        is_accepted("bad bytes behind", is_bad_behind),
        is_accepted("at an odd address", starts_odd),
        is_accepted("an absent value's place over 0 before", [](L lent) { return !stands(lent_map(lent), 2) && lent.places.at(2) > 0; }),
        is_refused("refused for no byte", 23, [](L lent) { return lent.lent.length == 0; }),
        is_refused("for a higher bit", 23, [=](L lent) { return lent.lent.length > 0 && !is_map(lent); }),
        is_refused("for a byte too few", 23, [=](L lent) { return short_by(lent, 1); }),
        is_refused("for a byte too many", 23, [=](L lent) { return long_by(lent, 1); }),
        is_refused("for 2^16 bytes too many", 23, [=](L lent) { return long_by(lent, 1 << 16); }),
        is_refused("for a field too many", 23, [=](L lent) { return long_by(lent, FIELD); }),
        is_refused("for a bad half byte", 23, [=](L lent) { return long_by(lent, 0); }),
    });
}

}  // namespace tallies
