/* Makes the session of a script on a tariff and says of each settled feature since which choice it is wanted or barred, the oldest first;
 * where a choice contradicts a rule, it says so at once of the features of that rule. */
#include "follow.h"

/* The book's numbers: how many features, rules and literals it has, then where the literals of each rule start and the last end, then the literals. */
enum { FEATURES, RULES, LITERALS, STARTS };

static const char *state_of(uint64_t answer) {
    switch (tariff_state(answer)) {
    case TARIFF_IS_WANTED: return "wanted";
    case TARIFF_IS_BARRED: return "barred";
    case TARIFF_IS_OPEN: return "open";
    default: return "not told";
    }
}

/* Says how a feature is settled and since when, by the answer of its lookup. */
static void say_feature(uint32_t feature, uint64_t answer) {
    uint32_t level = tariff_level(answer);
    printf("  %u %s: %s", feature, name_of(feature), state_of(answer));
    if (feature == chosen[level]) {
        printf(", choice %u", level);
    } else {
        printf(" since ");
        say_level(level);
    }
    printf("\n");
}

/* Where a step contradicts a rule, each literal of it is false: its features show which choices do not go together. */
static void say_contradiction(uint64_t answer) {
    const uint32_t *starts = book + STARTS, *literals = starts + book[RULES] + 1;
    uint32_t rule = tariff_number(answer);
    if (tariff_kind(answer) != TARIFF_CONFLICT) return;
    printf("contradiction of rule %u at ", rule);
    say_level(choices);
    printf("\n");
    for (uint32_t i = starts[rule - 1]; i < starts[rule]; i++)
        say_feature(literals[i] / 2, lookup(literals[i] / 2));
}

/* Those of the opening, then each choice and what it forced; how many are open comes last. */
static void say_settled(void) {
    static uint64_t answers[TARIFF_FEATURES + 1];
    uint32_t open = 0;
    for (uint32_t feature = 1; feature <= book[FEATURES]; feature++) {
        answers[feature] = lookup(feature);
        if (tariff_state(answers[feature]) == TARIFF_IS_OPEN) open++;
    }
    printf("settled at the end, the oldest first\n");
    for (uint32_t level = 0; level <= choices; level++) {
        if (level > 0) say_feature(chosen[level], answers[chosen[level]]);
        for (uint32_t feature = 1; feature <= book[FEATURES]; feature++)
            if (tariff_state(answers[feature]) != TARIFF_IS_OPEN && tariff_level(answers[feature]) == level && feature != chosen[level])
                say_feature(feature, answers[feature]);
    }
    printf("  %u features are open\n", open);
}

int main(int count, char **words) {
    program = "since";
    after_step = say_contradiction;
    if (count != 3) fail("usage: since TARIFF SCRIPT");
    read_tariff(words[1]);
    read_names();
    read_script(words[2]);
    open_session();
    follow_script();
    say_settled();
    return 0;
}
