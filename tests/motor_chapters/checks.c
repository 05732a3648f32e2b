/* Makes the session of a script on a tariff and prints the checks of each rule, a line `RULE CHECKS`. */
#include "follow.h"

int main(int count, char **words) {
    static uint32_t checks[TARIFF_RULES];
    program = "checks";
    if (count != 3) fail("usage: checks TARIFF SCRIPT");
    read_tariff(words[1]);
    read_script(words[2]);
    open_session();
    follow_script();
    uint64_t answer = tariff_checks(book, TARIFF_BOOK, session, needed, checks, TARIFF_RULES);
    expect_accepted(answer);
    for (uint32_t rule = 1; rule <= tariff_number(answer); rule++)
        printf("%u %u\n", rule, checks[rule - 1]);
    return 0;
}
