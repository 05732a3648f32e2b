/* Makes the session of a script on a tariff and says after each choice and take-back the premium by a rate list, in cents; at the end it says it line by line. */
#include "rates.h"

/* The columns before the amount of a step and of a line. */
enum { STEP = 42, LINE = 78 };

/* Whether there is a premium; by the first lines alone, with how many of them are open. */
static int price(size_t first, int64_t *amount, uint32_t *open) {
    uint64_t answer = tariff_price(book, TARIFF_BOOK, session, needed, base, lines, TARIFF_LINE_NUMBERS * first, amount);
    *open = tariff_number(answer);
    return has_premium(answer);
}

/* Says the opening, the choice or the take-back, and answers how many bytes that took. */
static int say_made(uint32_t before) {
    if (choices < before) return printf("  %u choice%s taken back", before - choices, before - choices == 1 ? "" : "s");
    int columns = printf("  ") + say_level(choices);
    return tariff_state(lookup(chosen[choices])) == TARIFF_IS_BARRED ? columns + printf(", barred") : columns;
}

static void say_step(uint64_t answer) {
    static int begun;
    static uint32_t before; /* the choices in force at the step before */
    int64_t amount;
    uint32_t open;
    int priced = price(count, &amount, &open);
    if (!begun++) printf("the premium after each choice, in cents\n");
    fill(STEP - say_made(before));
    before = choices;
    if (priced) say_premium(amount, open);
    else printf("   no premium: rule %u is contradicted (14)\n", tariff_number(answer));
}

static const char *state_of(const int32_t *line) {
    uint32_t state = tariff_state(lookup((uint32_t)line[0] / 2));
    if (state == TARIFF_IS_OPEN) return "open";
    return (state == TARIFF_IS_BARRED) == (line[0] % 2 == 1) ? "applies" : "does not apply";
}

static void say_line(size_t i) {
    const int32_t *line = lines + TARIFF_LINE_NUMBERS * i;
    printf("  %-30s %4d  %-11s", names[i], line[0] % 2 == 1 ? -(line[0] / 2) : line[0] / 2, line[1] == TARIFF_AMOUNT ? "amount" : "thousandths");
    say_signed(line[2], 11);
    printf("   %-14s", state_of(line));
}

/* The amount behind a line is the premium by the lines up to it. */
static void say_lines(void) {
    int64_t amount;
    uint32_t open;
    if (!price(0, &amount, &open)) {
        printf("there is no premium: a contradiction stands (14)\n");
        return;
    }
    printf("the premium at the end, line by line, in cents\n%-*s", LINE, "  base");
    say_signed(amount, AMOUNT);
    for (size_t i = 0; i < count; i++) {
        printf("\n");
        say_line(i);
        price(i + 1, &amount, &open);
        say_signed(amount, AMOUNT);
    }
    printf("\n%-*s", LINE, "  premium");
    say_premium(amount, open);
}

int main(int number, char **words) {
    program = "price";
    after_step = say_step;
    if (number != 4) fail("usage: price TARIFF RATES SCRIPT");
    read_tariff(words[1]);
    read_names();
    char *rates = read_rates(words[2]);
    read_script(words[3]);
    open_session();
    follow_script();
    say_lines();
    free(rates);
    return 0;
}
