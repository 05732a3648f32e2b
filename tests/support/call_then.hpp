// A wrong way in place of a call: the call; then its answer and what it left are changed, by what was lent before.
#pragma once
#include <cstdint>
#include <functional>

template <class Lending, class Change>
std::function<uint64_t(Lending&)> call_then(uint64_t (*call)(Lending&), Change change) {
    return [call, change](Lending& lent) -> uint64_t {
        const Lending before = lent;
        uint64_t answer = call(lent);
        return change(answer, lent, before);
    };
}

// The same where the answer is such: what it left is changed, and the answer stays.
template <class Lending, class Condition, class Change>
std::function<uint64_t(Lending&)> call_then_where(uint64_t (*call)(Lending&), Condition condition, Change change) {
    return call_then(call, [=](uint64_t answer, Lending& lent, const Lending& before) {
        if (condition(answer)) change(lent, before);
        return answer;
    });
}
