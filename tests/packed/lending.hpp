// What a call of K8 is lent, and the library's calls.
#pragma once
#include <array>
#include <cstddef>
#include <cstdint>
#include <functional>
#include <tariff.h>
#include <vector>

using Bytes = std::vector<uint8_t>;

constexpr size_t FIELD = 7, VALUES = 3, RECORD = 22;
static_assert(TARIFF_MOST_FIELD == FIELD && TARIFF_MOST_RECORD == RECORD);
static_assert(TARIFF_HAS_BASE == 1 && TARIFF_HAS_PREMIUM == 2 && TARIFF_HAS_OPEN_LINES == 4);

using Values = std::array<int64_t, VALUES>;  // base, premium and open lines

// The lent bytes stand between others that no call may write, at least GUARD of them on each side.
struct LentBytes {
    static constexpr size_t GUARD = 32;

    Bytes memory = Bytes(2 * GUARD);
    size_t start = GUARD;
    size_t length = 0;
    bool none_as_null = true;  // the header allows NULL for no byte, and any other address, too

    uint8_t* data() { return length == 0 && none_as_null ? nullptr : memory.data() + start; }

    // The byte that stands so many behind the first lent one.
    Bytes::iterator at(size_t place) { return memory.begin() + static_cast<std::ptrdiff_t>(start + place); }
    Bytes::const_iterator at(size_t place) const { return memory.begin() + static_cast<std::ptrdiff_t>(start + place); }

    // Some of them; those behind the lent ones, too.
    Bytes part(size_t first, size_t count) const { return Bytes(at(first), at(first + count)); }

    Bytes all() const { return part(0, length); }
};

// Where values are read to: each place stands between two numbers that no call may write.
struct Places {
    std::array<int64_t, 2 * VALUES + 1> numbers{11, -12, 13, -14, 15, -16, 17};

    int64_t& at(size_t i) { return numbers[2 * i + 1]; }
    int64_t at(size_t i) const { return numbers[2 * i + 1]; }
};

struct Lending {
    Values values{};   // what is written; of a field the first
    size_t bytes = 0;  // of a field that is written
    uint8_t map = 0;   // of a record that is written
    LentBytes lent{};  // what is read, or the room for what is written
    Places places{};   // where values are read to; of a field the first
};

// A way to make a call: the library's, or another one in its place.
using Way = std::function<uint64_t(Lending&)>;

inline uint64_t write_field_by_library(Lending& lent) { return tariff_write_field(lent.values[0], lent.bytes, lent.lent.data(), lent.lent.length); }

inline uint64_t read_field_by_library(Lending& lent) { return tariff_read_field(lent.lent.data(), lent.lent.length, &lent.places.at(0)); }

inline uint64_t write_quote_by_library(Lending& lent) {
    return tariff_write_quote(lent.map, lent.values[0], lent.values[1], lent.values[2], lent.lent.data(), lent.lent.length);
}

inline uint64_t read_quote_by_library(Lending& lent) {
    return tariff_read_quote(lent.lent.data(), lent.lent.length, &lent.places.at(0), &lent.places.at(1), &lent.places.at(2));
}
