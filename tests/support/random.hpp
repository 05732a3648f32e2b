// A seeded random number generator, the same on every machine.
#pragma once
#include <cstddef>
#include <cstdint>
#include <utility>
#include <vector>

class Random {
public:
    explicit Random(uint64_t seed) : state(seed) {}

    // Splitmix64.
    uint64_t next() {
        uint64_t z = (state += 0x9e3779b97f4a7c15u);
        z = (z ^ (z >> 30)) * 0xbf58476d1ce4e5b9u;
        z = (z ^ (z >> 27)) * 0x94d049bb133111ebu;
        return z ^ (z >> 31);
    }

    int below(int n) { return static_cast<int>(next() % static_cast<uint64_t>(n)); }
    int between(int low, int high) { return low + below(high - low + 1); }
    bool chance(int percent) { return below(100) < percent; }
    int sign(int variable) { return chance(50) ? variable : -variable; }

    template <class Item>
    const Item& pick(const std::vector<Item>& items) {
        return items[next() % items.size()];
    }

    template <class Item>
    void shuffle(std::vector<Item>& items) {
        for (size_t i = items.size(); i > 1; i--) std::swap(items[i - 1], items[next() % i]);
    }

private:
    uint64_t state;
};
