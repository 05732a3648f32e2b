/* Shared by the examples that price a session: reads a rate list and says amounts of cents in columns.
 * A rate list begins with its base, as `base: 30000`. Its lines are as `young driver: 28 thousandths 350` and `without a garage: -47 amount 1500`. */
#ifndef RATES_H
#define RATES_H
#include "follow.h"

/* The columns of an amount with a blank before it. */
enum { AMOUNT = 19 };

static int64_t base;
static int based;    /* whether the base was read */
static size_t count; /* how many lines there are */
static const char *names[TARIFF_MOST_LINES];
static int32_t lines[TARIFF_MOST_LINES * TARIFF_LINE_NUMBERS];

static int is_blank(const char *line) { return line[strspn(line, " \t")] == '\0'; }

/* Hands over each line of a file, which a message calls by the word; empty lines, those of blanks, and those that begin with `#`, are passed over.
 * A line lies in the bytes that are answered, and may be written and kept until the caller frees them. */
static char *read_lines(const char *path, const char *word, void (*take)(char *line)) {
    size_t length;
    char *bytes = read_bytes(path, word, &length);
    if (strlen(bytes) != length) fail("the %s has a byte 0", word);
    for (char *line = strtok(bytes, "\r\n"); line; line = strtok(NULL, "\r\n"))
        if (line[0] != '#' && !is_blank(line)) take(line);
    return bytes;
}

static void read_base(const char *line) {
    long long cents;
    int end = 0;
    if (sscanf(line, "base: %10lld %n", &cents, &end) != 1 || line[end] != '\0') fail("this is no base: %s", line);
    base = cents;
    based = 1;
}

/* A feature stands for its literal, wanted, or with `-` in front barred, as in a script. */
static void add_line(const char *name, int feature, int32_t kind, int32_t value) {
    int32_t *line = lines + TARIFF_LINE_NUMBERS * count;
    if (count == TARIFF_MOST_LINES) fail("the rate list has more than 200 lines");
    names[count++] = name;
    line[0] = (int32_t)(feature < 0 ? tariff_barred((uint32_t)-feature) : tariff_wanted((uint32_t)feature));
    line[1] = kind;
    line[2] = value;
}

/* The name ends at the first colon. Of the kind a byte more is read than the longest has, so that a number must not follow at once. */
static void read_line(char *line) {
    char kind[13] = "";
    int feature = 0, value = 0, end = 0;
    char *colon = strchr(line, ':');
    int taken = colon ? sscanf(colon + 1, "%9d%*1[ \t] %12s %9d %n", &feature, kind, &value, &end) : 0;
    int amount = strcmp(kind, "amount") == 0;
    if (taken != 3 || colon[1 + end] != '\0' || (!amount && strcmp(kind, "thousandths") != 0)) fail("this is no rate: %s", line);
    *colon = '\0';
    add_line(line, feature, amount ? TARIFF_AMOUNT : TARIFF_THOUSANDTHS, value);
}

/* The base comes first. */
static void read_rate(char *line) {
    if (based) read_line(line);
    else read_base(line);
}

/* The names of the lines lie in the bytes that are answered. */
static char *read_rates(const char *path) {
    char *bytes = read_lines(path, "rate list", read_rate);
    if (!based) fail("the rate list has no base");
    return bytes;
}

/* Whether a price was answered by a premium, which there is not in contradiction. */
static int has_premium(uint64_t answer) {
    if (tariff_kind(answer) == TARIFF_ACCEPTED) return 1;
    if (tariff_number(answer) == 19) fail("the base or a line of the rate list is outside its range (19)");
    if (tariff_number(answer) == 20) fail("the amount is beyond 1,000,000,000,000 cents after a line (20)");
    if (tariff_number(answer) != 14) fail("the session is refused");
    return 0;
}

static void fill(int columns) { printf("%*s", columns > 0 ? columns : 1, ""); }

/* How many columns say_number takes. */
static int columns_of(uint64_t number) {
    return number >= 1000 ? columns_of(number / 1000) + 4 : snprintf(NULL, 0, "%u", (unsigned)number);
}

/* At the right of so many columns. */
static void say_signed(int64_t number, int columns) {
    uint64_t size = number < 0 ? 0 - (uint64_t)number : (uint64_t)number;
    fill(columns - columns_of(size) - (number < 0));
    if (number < 0) printf("-");
    say_number(size);
}

static void say_premium(int64_t amount, uint32_t open) {
    say_signed(amount, AMOUNT);
    say_signed(open, 5);
    printf(" line%s open\n", open == 1 ? "" : "s");
}

#endif
