/* Says what the session of a script on a tariff needs and costs at most, before it is opened; then makes the session and says what it cost. */
#include "follow.h"

static uint32_t quoted[TARIFF_QUOTED];
static uint64_t ceiling;

/* The tariff was accepted, so that its book is not at fault: only a script of too many lines is refused. */
static void quote(void) {
    uint64_t answer = tariff_quote(book, TARIFF_BOOK, (const uint8_t *)script, script_length, quoted, TARIFF_QUOTED, &ceiling);
    if (tariff_kind(answer) != TARIFF_ACCEPTED) fail("the script has more than 1,000,000 lines of take-backs");
}

static void say_quote(void) {
    printf("before the session\n  it needs ");
    say_count(quoted[TARIFF_QUOTED_LENGTH], "number");
    printf("\n  the tariff's rules cost at most ");
    say_count(quoted[TARIFF_QUOTED_WORST], "check");
    printf(" until the first take-back, and as many again after each one\n  the script has ");
    say_count(quoted[TARIFF_QUOTED_BACK_LINES], "line");
    printf(" of take-backs, so it costs at most ");
    say_count(ceiling, "check");
    printf("\n");
}

/* In as many numbers as quoted, and on the bytes that were quoted for. */
static void make_session(void) {
    open_in(quoted[TARIFF_QUOTED_LENGTH]);
    follow_script();
}

static void say_cost(void) {
    uint32_t figures[TARIFF_FIGURES];
    uint64_t total;
    expect_accepted(tariff_figures(book, TARIFF_BOOK, session, needed, figures, TARIFF_FIGURES));
    expect_accepted(tariff_total(book, TARIFF_BOOK, session, needed, &total));
    printf("after the session\n  ");
    say_count(figures[TARIFF_TAKE_BACKS], "take-back");
    printf(" %s accepted\n  it cost ", figures[TARIFF_TAKE_BACKS] == 1 ? "was" : "were");
    say_count(total, "check");
    printf("\n");
}

int main(int count, char **words) {
    program = "quote";
    if (count != 3) fail("usage: quote TARIFF SCRIPT");
    read_tariff(words[1]);
    read_script(words[2]);
    quote();
    say_quote();
    make_session();
    say_cost();
    return 0;
}
