// What K8 claims of several calls together: what is within its digits survives writing and reading, zero is written with C and nothing with F, and what is
// read and written again is the same but that F, and the D of a minus zero, become C.
#pragma once
#include <cstddef>
#include <cstdint>
#include <string>
#include <utility>

#include "draw.hpp"

struct Ways {
    Way write_field = write_field_by_library, read_field = read_field_by_library;
    Way write_quote = write_quote_by_library, read_quote = read_quote_by_library;
};

class Claims {
public:
    Claims(uint64_t seed, Ways ways) : draw(seed), ways(std::move(ways)) {}

    // How many fields and records were written.
    long count() const { return written_count; }

    void hold_all() {
        for (size_t bytes = 1; bytes <= FIELD; bytes++) hold_fields(bytes);
        for (unsigned code = 0; code < 8; code++) hold_records(static_cast<uint8_t>(code));
    }

private:
    // Each limit of the digits, and values of each number of them.
    void hold_fields(size_t bytes) {
        for (int64_t value : limit_values_in(bytes)) read_back(value, bytes);
        for (size_t digits = 1; digits < 2 * bytes; digits++)
            for (int i = 0; i < 200; i++) read_back(draw.value(digits), bytes);
        for (int i = 0; i < 1000; i++) write_field_again(draw.good_field(bytes));
    }

    // What is absent may be anything.
    void hold_records(uint8_t map) {
        for (int i = 0; i < 2000; i++) {
            Values values{};
            for (size_t bit = 0; bit < VALUES; bit++) values[bit] = stands(map, bit) || draw.below(2) == 0 ? draw.value_within() : draw.value_over();
            record_read_back(map, values);
        }
        for (int i = 0; i < 2000; i++) write_record_again(draw.good_record(map, bits_of(map)));
    }

    // What is written in as many bytes as are needed, or more.
    Bytes written(const Way& write, Lending lent, const std::string& part) {
        const uint64_t answer = write(lent);
        expect(tariff_kind(answer) == TARIFF_ACCEPTED && answer <= lent.lent.length, part + ": refused in writing" + described(lent));
        written_count++;
        return lent.lent.part(0, answer);
    }

    Bytes write_field(int64_t value, size_t bytes, const std::string& part) {
        return written(ways.write_field, draw.writing_field(value, bytes, bytes + static_cast<size_t>(draw.below(3))), part);
    }

    Bytes write_record(uint8_t map, const Values& values, const std::string& part) {
        return written(ways.write_quote, draw.writing_record(map, values, RECORD + static_cast<size_t>(draw.below(3))), part);
    }

    // C from zero on and D below, and digits alone before it.
    static void expect_form(const std::string& text, int64_t value) {
        expect(text.find_first_not_of("0123456789") == text.size() - 1, "form: " + text + " has another half byte than a digit");
        expect(text.back() == (value < 0 ? 'D' : 'C'), "form: " + text + " has another sign");
    }

    int64_t read_field(const Bytes& field, const std::string& part) {
        Lending lent = draw.reading(field);
        expect(ways.read_field(lent) == 0, part + ": refused in reading" + described(lent));
        return lent.places.at(0);
    }

    Values read_record(const Bytes& record, const std::string& part) {
        Lending lent = draw.reading(record);
        expect(ways.read_quote(lent) == record[0], part + ": another map or refused in reading" + described(lent));
        return {lent.places.at(0), lent.places.at(1), lent.places.at(2)};
    }

    void read_back(int64_t value, size_t bytes) {
        const Bytes field = write_field(value, bytes, "read back");
        expect(field.size() == bytes, "read back: another length");
        expect_form(text_of(field), value);
        expect(read_field(field, "read back") == value, "read back: another value than " + std::to_string(value));
    }

    void record_read_back(uint8_t map, const Values& values) {
        const Bytes record = write_record(map, values, "record");
        expect(record.size() == 1 + FIELD * bits_of(map) && record[0] == map, "record: another length or map");
        std::string text = text_of(record).substr(2);
        const Values read = read_record(record, "record");
        for (size_t bit = 0; bit < VALUES; bit++) {
            expect(read[bit] == (stands(map, bit) ? values[bit] : 0), "record: another value at bit " + std::to_string(bit));
            if (!stands(map, bit)) continue;
            expect_form(text.substr(0, 2 * FIELD), values[bit]);
            text.erase(0, 2 * FIELD);
        }
    }

    // A field as it is written again.
    static std::string settled(std::string text) {
        const bool zero = text.find_first_not_of('0') == text.size() - 1;
        if (text.back() == 'F' || zero) text.back() = 'C';
        return text;
    }

    void write_field_again(const std::string& text) {
        const int64_t value = read_field(bytes_of(text), "written again");
        const std::string again = text_of(write_field(value, text.size() / 2, "written again"));
        expect(again == settled(text), "written again: " + text + " as " + again);
    }

    void write_record_again(const Bytes& record) {
        const Values values = read_record(record, "record again");
        const std::string text = text_of(record), again = text_of(write_record(record[0], values, "record again"));
        std::string due = text.substr(0, 2);
        for (size_t at = 2; at < text.size(); at += 2 * FIELD) due += settled(text.substr(at, 2 * FIELD));
        expect(again == due, "record again: " + text + " as " + again);
    }

    Draw draw;
    Ways ways;
    long written_count = 0;
};
