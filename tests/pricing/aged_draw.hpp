// Draws what a call that prices for an age is lent: what K1's call is lent, with a table and an age.
#pragma once
#include <algorithm>
#include <cstddef>
#include <cstdint>
#include <vector>

#include "aged.hpp"
#include "draw.hpp"
#include "tables.hpp"

class AgedDraw : public Draw {
public:
    AgedDraw(Random& random, const Library& library) : Draw(random, library, Unlisted{}), tables(random) {
        bands = tables.good();
        age = tables.age_by(bands);
        scale();
        if (random.chance(35)) tables.damage(bands);
        if (random.chance(12)) bands = random.chance(20) ? tables.any_bands() : tables.any();
        if (random.chance(9)) age = tables.bad_age();
        table = tables.lend(bands);
        lend();
        refusal = random.chance(50) ? parts.damage() : 0;
    }

    AgedLending for_age() const { return {lent, table, age}; }

private:
    uint32_t& factor() {
        auto holds = [this](const Band& band) { return band.first <= age && age <= band.last; };
        return std::find_if(bands.begin(), bands.end(), holds)->factor;
    }

    // To a half of a cent or next to it; to the limit of the running amount; by the factor that changes nothing; or by any.
    void scale() {
        int kind = random.below(100);
        if (kind < 20) return climb_scaled();
        list();
        if (kind < 45) halve_scaled();
        if (kind >= 45 && kind < 55) factor() = 1000;
        if (kind >= 55 && kind < 60) lent.base = random.pick(std::vector<int64_t>{-1, 1000000001});
    }

    // By any factor, or one whose halves are often lost in floating point.
    void halve_scaled() {
        if (random.chance(50)) factor() = random.pick(Numbers{2300, 4100, 4100});
        lent.base = halved(wide_below(random.chance(50) ? 100 : 999999000), static_cast<int32_t>(factor()));
    }

    // As climb(), from a base that the greatest factor takes beyond the greatest base; now and then no line follows.
    void climb_scaled() {
        int64_t short_of = wide_below(7000);
        factor() = MAX_FACTOR;
        lent.base = 781250000 - short_of;
        if (random.chance(20)) lent.base = MAX_BASE - wide_below(100000000);
        if (random.chance(20)) return;
        add_doublings(8);
        add_amount(1280 * short_of + random.between(-1, 1));
        come_back();
    }

    Tables tables;
    Bands bands{};
    LentTable table{};
    uint32_t age = 0;
};
