// A lent part is the first of a memory that may hold more, which a call must not look at or write; and the comparison of numbers and memory.
#pragma once
#include <cstddef>
#include <cstdint>
#include <string>
#include <tariff.h>
#include <vector>

#include "session.hpp"

template <class Number>
struct Loan {
    std::vector<Number> memory;
    size_t length = 0;
};

// NULL for a part of length 0, as the header allows.
template <class Number>
Number* pointer_to(Loan<Number>& part) {
    return part.length == 0 ? nullptr : part.memory.data();
}

inline void compare_number(uint64_t seen, uint64_t expected, const std::string& name, size_t place) {
    if (seen != expected)
        throw Disagreement(name + " " + std::to_string(place) + " is " + std::to_string(seen) + ", must be " + std::to_string(expected));
}

template <class Number>
void compare_memory(const std::vector<Number>& memory, const std::vector<Number>& expected, const std::string& name) {
    if (memory == expected) return;
    for (size_t i = 0; i < expected.size(); i++) compare_number(memory[i], expected[i], name, i);
}

// A refusal as a C call answers it.
inline uint64_t c_refusal(uint64_t number) { return uint64_t{TARIFF_REFUSED} << 32 | number; }
