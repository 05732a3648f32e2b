// How many lines of a script are of the form `b k`: by a machine that takes byte after byte, and by grep.
#pragma once
#include <stdio.h>

#include <cstdint>
#include <cstdlib>
#include <filesystem>
#include <stdexcept>
#include <string>

class BackLines {
public:
    void take(uint8_t byte) {
        if (byte == 10)
            end();
        else
            fitting = fits(byte) ? fitting + 1 : LOST;
    }

    // The end of a line, or of the script.
    void end() {
        if (fitting >= 3 && fitting <= 11) count++;
        fitting = 0;
    }

    uint64_t count = 0;

private:
    static constexpr int LOST = 99;

    // Whether the line can go on so behind the bytes that fitted: `b`, one byte 32, then up to nine digits.
    bool fits(uint8_t byte) const {
        if (fitting == 0) return byte == 98;
        if (fitting == 1) return byte == 32;
        return fitting < 11 && byte >= 48 && byte <= 57;
    }

    int fitting = 0;  // so many bytes of the line, all of them up to now, or LOST
};

inline uint64_t back_lines(const std::string& script) {
    BackLines lines;
    for (char byte : script) lines.take(static_cast<uint8_t>(byte));
    lines.end();
    return lines.count;
}

// The path has no quotes.
inline uint64_t back_lines_by_grep(const std::filesystem::path& script) {
    FILE* grep = popen(("LC_ALL=C grep -a -c -E '^b [0-9]{1,9}$' '" + script.string() + "'").c_str(), "r");
    char said[32] = "";
    if (grep == nullptr || fgets(said, sizeof said, grep) == nullptr) throw std::runtime_error("grep says nothing");
    pclose(grep);
    return std::strtoull(said, nullptr, 10);
}
