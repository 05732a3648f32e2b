// Compares a session that `desk` told with the assignment that propagation must come to.
#pragma once
#include <string>

#include "play.hpp"
#include "session.hpp"

inline std::string value_name(int value) { return value == 0 ? "open" : value > 0 ? "wanted" : "barred"; }

inline void compare(const Session& session, const Assignment& expected) {
    expect(session.in_conflict() == expected.conflict, expected.conflict ? "a contradiction is missed" : "there is no contradiction");
    if (expected.conflict) return;
    for (int variable = 1; variable < static_cast<int>(expected.values.size()); variable++)
        if (session.value(variable) != expected.values[variable])
            throw Disagreement("feature " + std::to_string(variable) + " is " + value_name(session.value(variable)) + ", must be " +
                               value_name(expected.values[variable]));
}
