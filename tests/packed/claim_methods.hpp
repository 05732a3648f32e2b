// Wrong ways to make the calls of the claims, one of them or both of a pair; each with how the disagreement of the claims begins that must notice it.
#pragma once
#include <cstddef>
#include <cstdint>

#include "claims.hpp"
#include "record_methods.hpp"

namespace methods {

// The library's ways but for one.
inline Ways claims_with(Way Ways::*call, const Way& other) {
    Ways ways;
    ways.*call = other;
    return ways;
}

inline Ways both_fields(const Recipe& recipe) {
    Ways ways = claims_with(&Ways::write_field, by(write_field_by, recipe));
    ways.read_field = by(read_field_by, recipe);
    return ways;
}

inline Ways both_records(const Recipe& recipe) {
    Ways ways = claims_with(&Ways::write_quote, by(write_quote_by, recipe));
    ways.read_quote = by(read_quote_by, recipe);
    return ways;
}

inline NamedList<Ways> wrong_field_claims() {
    return {
        {"fields with F for plus", "form", both_fields(with(&Recipe::sign_half, plus_by_f))},
        {"zero with D both ways", "form", both_fields(with(&Recipe::sign_half, zero_by_d))},
        {"low half first both ways", "form", both_fields(with(&Recipe::arranged, low_half_first))},
        {"lowest byte first both ways", "form", both_fields(with(&Recipe::arranged, from_the_back))},
        {"all nines of 7 bytes refused", "read back", claims_with(&Ways::write_field, by(write_field_by, with_limit(FIELD, limit_of(FIELD) - 1)))},
        {"a minus lost in reading", "read back", claims_with(&Ways::read_field, by(read_field_by, with_sign(13, Sign::PLUS)))},
        {"a length of 7 refused", "read back", both_fields(with(&Recipe::length, [](size_t bytes) { return bytes - 1 < 6; }))},
        {"F as minus, written again", "written again", claims_with(&Ways::read_field, by(read_field_by, with_sign(15, Sign::MINUS)))},
        {"F refused, written again", "written again", claims_with(&Ways::read_field, by(read_field_by, with_sign(15, Sign::NONE)))},
        {"minus zero refused, written again", "written again", claims_with(&Ways::read_field, by(read_field_by, with(&Recipe::value, without_minus_zero)))},
    };
}

inline NamedList<Ways> wrong_record_claims() {
    return {
        {"a record with F for plus", "form", both_records(with(&Recipe::sign_half, plus_by_f))},
        {"a record's zero with D", "form", both_records(with(&Recipe::sign_half, zero_by_d))},
        {"base and premium exchanged in one of the two", "record:", claims_with(&Ways::read_quote, by(read_quote_by, with(&Recipe::place, exchanged_place)))},
        {"absent values judged in a claim", "record:", claims_with(&Ways::write_quote, by(write_quote_by, with(&Recipe::judged, always)))},
        {"all fields written whatever the map", "record:", both_records(all_written())},
        {"the map lost in reading", "record:", claims_with(&Ways::read_quote, by(read_quote_by, with(&Recipe::map_byte, [](uint8_t) { return uint8_t{0}; })))},
        {"negative open lines refused, read back", "record:", claims_with(&Ways::read_quote, by(read_quote_by, with(&Recipe::part, no_negative_lines)))},
        {"a record's minus zero refused, written again", "record again",
         claims_with(&Ways::read_quote, by(read_quote_by, with(&Recipe::value, without_minus_zero)))},
        {"F as minus in a record, written again", "record again", claims_with(&Ways::read_quote, by(read_quote_by, with_sign(15, Sign::MINUS)))},
    };
}

}  // namespace methods
