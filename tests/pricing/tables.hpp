// Draws tables of age bands, good ones and damaged ones, and ages.
#pragma once
#include <algorithm>
#include <cstddef>
#include <cstdint>
#include <numeric>
#include <utility>
#include <vector>

#include "../support/random.hpp"
#include "checking.hpp"

class Tables {
public:
    explicit Tables(Random& random) : random(random) {}

    // The ages from 0 to 120, cut at some of them, in any order.
    Bands good() {
        static const std::vector<int> counts{1, 2, 3, 4, 4, 5, 8, 20, 62, 63, 64, 64};
        return cut(random.chance(80) ? random.pick(counts) : random.between(1, 64));
    }

    // None, so many times all ages, or some that have nothing to do with each other.
    Bands any_bands() {
        int kind = random.below(3);
        if (kind == 0) return {};
        if (kind == 1) return Bands(random.pick(std::vector<size_t>{2, 3, 3, 63, 64, 64, 65, 66}), {0, MAX_AGE, any_factor()});
        Bands bands(static_cast<size_t>(random.between(1, 66)));
        for (Band& band : bands) band = any_band();
        return bands;
    }

    // A good one, often with one damage or more; or any bands.
    Bands any() {
        Bands bands = random.chance(95) ? good() : any_bands();
        if (random.chance(75))
            for (int damages = random.chance(70) ? 1 : random.between(2, 3); damages > 0; damages--) damage(bands);
        return bands;
    }

    // One damage, or a change after which it is good still.
    void damage(Bands& bands) {
        int kind = random.below(100);
        if (bands.empty() || kind < 5) add_band(bands);
        if (kind >= 5 && kind < 55) damage_ages(pick(bands));
        if (kind >= 55 && kind < 65) damage_factor(pick(bands));
        if (kind >= 65 && kind < 75) spoil_number(pick(bands));
        if (kind >= 75) damage_list(bands);
    }

    // Behind the table stand a band that was left out, one of all ages, or any numbers; now and then a part of a band is lent, too.
    LentTable lend(const Bands& bands) {
        Bands behind{random.chance(50) ? dropped : Band{0, MAX_AGE, any_factor()}, {any_number(), any_number(), any_number()}};
        LentTable table = table_of(bands, behind);
        if (random.chance(6)) table.length += static_cast<size_t>(random.between(1, 2));
        return table;
    }

    Checking any_checking() {
        Checking lent{lend(any()), {any_number(), any_number(), any_number()}};
        if (random.chance(30)) lent.age() = static_cast<uint32_t>(random.below(122));
        return lent;
    }

    // At either end of a band, or next to it; or any age.
    uint32_t age_by(const Bands& bands) {
        if (bands.empty() || random.chance(30)) return random.chance(20) ? random.pick(Numbers{0, MAX_AGE}) : any_age();
        const Band& band = random.pick(bands);
        uint32_t age = random.chance(50) ? band.first : band.last;
        if (random.chance(20)) age += static_cast<uint32_t>(random.between(-1, 1));
        return age <= MAX_AGE ? age : any_age();
    }

    // The first ones, those that are good in 8 or 16 bits, and any.
    uint32_t bad_age() {
        Numbers ages{121, 121, 121, 122, 0xffffffffu, 0x80000000u, 256 + any_age(), 65536 + any_age(), 0x80000000u + any_age(), any_number()};
        return std::max(random.pick(ages), MAX_AGE + 1);
    }

private:
    uint32_t any_number() { return static_cast<uint32_t>(random.next()); }
    uint32_t any_age() { return static_cast<uint32_t>(random.below(121)); }
    Band& pick(Bands& bands) { return bands[static_cast<size_t>(random.next() % bands.size())]; }

    uint32_t any_factor() {
        static const Numbers edges{0, 1, 499, 500, 501, 999, 1000, 1000, 1001, 4999, 5000, 5000};
        return random.chance(40) ? random.pick(edges) : static_cast<uint32_t>(random.below(5001));
    }

    void order(Bands& bands) {
        if (random.chance(70)) random.shuffle(bands);
        if (random.chance(10)) std::reverse(bands.begin(), bands.end());
    }

    Bands cut(int count) {
        Numbers firsts(MAX_AGE);
        std::iota(firsts.begin(), firsts.end(), 1u);
        random.shuffle(firsts);
        firsts.resize(static_cast<size_t>(count - 1));
        firsts.push_back(0);
        std::sort(firsts.begin(), firsts.end());
        Bands bands;
        for (uint32_t first : firsts) bands.push_back({first, MAX_AGE, any_factor()});
        for (size_t i = 1; i < bands.size(); i++) bands[i - 1].last = bands[i].first - 1;
        order(bands);
        return bands;
    }

    Band any_band() {
        auto [first, last] = std::minmax({any_age(), any_age()});
        return {first, last, any_factor()};
    }

    // One of those that are there once more, the first age or the last alone, or any; once, or twice.
    void add_band(Bands& bands) {
        int kind = random.below(4);
        uint32_t edge = random.pick(Numbers{0, MAX_AGE});
        Band more = kind == 0 ? Band{edge, edge, any_factor()} : kind < 3 && !bands.empty() ? pick(bands) : any_band();
        bands.insert(bands.end(), random.chance(60) ? 1 : 2, more);
    }

    // An end one year off, both of them, or exchanged; the first one over the last, or both over 120.
    void damage_ages(Band& band) {
        int kind = random.below(16);
        if (kind < 2) band.first--;
        if (kind >= 2 && kind < 4) band.last++;
        if (kind >= 4 && kind < 6) band.first++;
        if (kind >= 6 && kind < 8) band.last--;
        if (kind == 8) band = {band.first + 1, band.last + 1, band.factor};
        if (kind == 9) band = {band.first - 1, band.last - 1, band.factor};
        if (kind == 10) std::swap(band.first, band.last);
        if (kind == 11) band.first = band.last + 1;
        if (kind == 12) band.last = MAX_AGE + 1;
        if (kind == 13) band = {MAX_AGE + 1, MAX_AGE + 1, band.factor};
        if (kind == 14) band = {0x80000000u + band.first, 0x80000000u + band.last, band.factor};
        if (kind == 15) band = any_band();
    }

    // The greatest one is still good.
    void damage_factor(Band& band) {
        static const Numbers factors{0, 5000, 5001, 5001, 5001, 5002, 65536 + 1000, 256 * 20, 0x80000000u, 0xffffffffu};
        band.factor = random.pick(factors);
    }

    // One that is good in 8, 16 or 31 bits, or any.
    void spoil_number(Band& band) {
        int place = random.below(3);
        uint32_t& number = place == 0 ? band.first : place == 1 ? band.last : band.factor;
        number = random.pick(Numbers{number + 256, number + 65536, number + 0x80000000u, 0xffffffffu, 0x7fffffffu, any_number(), 0u - number});
    }

    // A band left out; bands exchanged; or more bands than 64.
    void damage_list(Bands& bands) {
        int kind = random.below(8);
        if (kind < 3) {
            std::swap(pick(bands), bands.back());
            dropped = bands.back();
            bands.pop_back();
        }
        if (kind == 3) std::swap(pick(bands), pick(bands));
        if (kind == 4) bands = cut(65);
        if (kind == 5) bands = cut(random.between(65, 121));
        if (kind == 6) bands.insert(bands.end(), 256, any_band());
        if (kind == 7) bands.insert(bands.end(), 64, any_band());
    }

    Random& random;
    Band dropped{1, 2, 3};
};
