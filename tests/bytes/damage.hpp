// Bytes at random, and damage to the bytes of a text.
#pragma once
#include <algorithm>
#include <cstddef>
#include <string>
#include <vector>

#include "../support/random.hpp"

inline char random_byte(Random& random) { return static_cast<char>(random.below(256)); }

// A byte that rule books and scripts are made of.
inline char usual_byte(Random& random) { return "0123456789-- \n\n\t\rbcpnf+"[random.below(23)]; }

inline std::string random_bytes(Random& random, int length, int usual) {
    std::string bytes;
    while (static_cast<int>(bytes.size()) < length) bytes += random.chance(usual) ? usual_byte(random) : random_byte(random);
    return bytes;
}

// A place in the text, or its end.
inline size_t random_place(Random& random, const std::string& text) {
    return static_cast<size_t>(random.below(static_cast<int>(text.size()) + 1));
}

// The line that a place stands in, with its byte 10.
inline std::string line_at(const std::string& text, size_t place) {
    size_t start = place == 0 ? std::string::npos : text.rfind('\n', place - 1);
    start = start == std::string::npos ? 0 : start + 1;
    size_t end = text.find('\n', place);
    return text.substr(start, end == std::string::npos ? end : end + 1 - start);
}

inline const std::vector<std::string>& odd_words() {
    static const std::vector<std::string> words = {
        " 0 ",   " -0 ",  " 00 ",         " 000000000 ", " 0000000000 ",  " -000 ", " 1 ",  " -1 ", " +1 ",  " - ",
        " 500 ", " 501 ", " -501 ",       " 999999999 ", " 1000000000 ",  " 1-1 ",  " c ",  "\nc",  " p ",   "\np cnf 3 3\n",
        "\n",    " ",     "\r",           "\nb 1\n",     "\n1\n",         "\n-2\n", "b ",   "%",    "\n0\n", " 0 0 ",
    };
    return words;
}

inline void damage_once(Random& random, std::string& text) {
    size_t place = random_place(random, text);
    size_t length = static_cast<size_t>(random.between(1, random.chance(80) ? 4 : 200));
    switch (random.below(9)) {
        case 0:
            if (place < text.size()) text[place] = static_cast<char>(text[place] ^ (1 << random.below(8)));
            break;
        case 1:
            if (place < text.size()) text[place] = random.chance(70) ? usual_byte(random) : random_byte(random);
            break;
        case 2: text.insert(place, 1, random.chance(70) ? usual_byte(random) : random_byte(random)); break;
        case 3: text.insert(place, random.pick(odd_words())); break;
        case 4: text.erase(place, 1); break;
        case 5: text.erase(place, length); break;
        case 6: text.insert(place, line_at(text, place)); break;
        case 7: text.insert(place, length, random.chance(50) ? '\0' : ' '); break;
        default: text.erase(random.chance(50) ? place : text.size() - std::min(text.size(), length)); break;
    }
}

inline void damage(Random& random, std::string& text) {
    for (int times = random.pick(std::vector<int>{1, 1, 1, 2, 3, 8}); times > 0; times--) damage_once(random, text);
}
