// Bytes taken apart: lines, words, and numbers of 1 to 9 digits.
#pragma once
#include <cstddef>
#include <cstdlib>
#include <optional>
#include <string>
#include <vector>

// Lines end at byte 10; what follows the last byte 10 is a line only if it is not empty.
inline std::vector<std::string> lines_of(const std::string& text) {
    std::vector<std::string> lines;
    for (size_t start = 0; start < text.size();) {
        size_t end = text.find('\n', start);
        if (end == std::string::npos) end = text.size();
        lines.push_back(text.substr(start, end - start));
        start = end + 1;
    }
    return lines;
}

// Longest runs of bytes other than 32, 9, 13 and 10.
inline std::vector<std::string> words_of(const std::string& line) {
    std::vector<std::string> words;
    bool inside = false;
    for (char byte : line) {
        bool blank = byte == ' ' || byte == '\t' || byte == '\r' || byte == '\n';
        if (!blank && !inside) words.emplace_back();
        if (!blank) words.back() += byte;
        inside = !blank;
    }
    return words;
}

inline std::optional<int> unsigned_number(const std::string& word) {
    if (word.empty() || word.size() > 9) return std::nullopt;
    for (char byte : word)
        if (byte < '0' || byte > '9') return std::nullopt;
    return std::atoi(word.c_str());
}
