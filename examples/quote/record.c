/* Prices a script's session on a tariff for a customer's age, writes the quote record for the policy host and says its bytes; then says what the records
 * that the host answers with read as. A line of the answers is a name and the bytes of a record in hexadecimal, as `premium alone: 02 0000000139354F`. */
#include "../motor/bands.h"

struct quote {
    uint8_t map; /* which of the values are there */
    int64_t base, premium, open_lines;
};

struct answer {
    const char *name;
    uint8_t record[2 * TARIFF_MOST_RECORD];
    size_t length; /* how many bytes it has */
};

/* The values in the order of their fields. */
static const struct {
    uint8_t bit;
    const char *name;
} values[] = {{TARIFF_HAS_BASE, "base"}, {TARIFF_HAS_PREMIUM, "premium"}, {TARIFF_HAS_OPEN_LINES, "open lines"}};

enum { VALUES = sizeof values / sizeof *values, MOST_ANSWERS = 32 };
static struct answer answers[MOST_ANSWERS];
static size_t answer_count;

/* -1 where it is none of 0 to 9 and A to F. */
static int half_of(char digit) {
    static const char digits[] = "0123456789ABCDEF";
    const char *found = digit ? strchr(digits, digit) : NULL;
    return found ? (int)(found - digits) : -1;
}

/* The name ends at the first colon. A byte is two digits; there may be blanks between bytes. */
static void read_answer(char *line) {
    struct answer *answer = answers + answer_count;
    char *colon = strchr(line, ':');
    if (!colon) fail("this is no record: %s", line);
    if (answer_count++ == MOST_ANSWERS) fail("there are more than %d answers", MOST_ANSWERS);
    const char *at = colon + 1 + strspn(colon + 1, " \t");
    while (*at) {
        int high = half_of(at[0]), low = high < 0 ? -1 : half_of(at[1]);
        if (low < 0 || answer->length == sizeof answer->record) fail("this is no record: %s", line);
        answer->record[answer->length++] = (uint8_t)(16 * high + low);
        at += 2 + strspn(at + 2, " \t");
    }
    *colon = '\0';
    answer->name = line;
}

/* The number of an accepted answer; any other ends the program. */
static uint32_t accepted(uint64_t answer, const char *what) {
    if (tariff_kind(answer) != TARIFF_ACCEPTED) fail("%s is refused (%u)", what, tariff_number(answer));
    return tariff_number(answer);
}

static uint64_t read_quote(const uint8_t *record, size_t length, struct quote *quote) {
    uint64_t answer = tariff_read_quote(record, length, &quote->base, &quote->premium, &quote->open_lines);
    quote->map = (uint8_t)tariff_number(answer);
    return answer;
}

static void say_bytes(const uint8_t *bytes, size_t length) {
    for (size_t i = 0; i < length; i++) printf("%02X", bytes[i]);
}

/* Each field is read by itself. */
static void say_fields(const uint8_t *record) {
    const uint8_t *field = record + 1;
    printf("  %02X              the map\n", record[0]);
    for (size_t i = 0; i < VALUES; i++) {
        int64_t value;
        if (!(record[0] & values[i].bit)) continue;
        accepted(tariff_read_field(field, TARIFF_MOST_FIELD, &value), "a field");
        printf("  ");
        say_bytes(field, TARIFF_MOST_FIELD);
        printf("  %-10s", values[i].name);
        say_signed(value, AMOUNT);
        printf("\n");
        field += TARIFF_MOST_FIELD;
    }
}

static void say_record(const struct quote *quote) {
    uint8_t record[TARIFF_MOST_RECORD];
    struct quote back;
    size_t length = accepted(tariff_write_quote(quote->map, quote->base, quote->premium, quote->open_lines, record, sizeof record), "the quote");
    printf("its record for the policy host, %u bytes\n", (unsigned)length);
    say_fields(record);
    accepted(read_quote(record, length, &back), "the record");
    int same = back.map == quote->map && back.base == quote->base && back.premium == quote->premium && back.open_lines == quote->open_lines;
    printf("read back it is %s\n", same ? "the same quote" : "another quote");
}

/* From one byte on, until the value's digits fit. */
static void say_shortest(int64_t value) {
    uint8_t field[TARIFF_MOST_FIELD];
    uint64_t answer;
    size_t bytes = 0;
    printf("the premium as a field by itself\n");
    do {
        answer = tariff_write_field(value, ++bytes, field, sizeof field);
        printf("  %u byte%s", (unsigned)bytes, bytes == 1 ? "   " : "s  ");
        if (tariff_kind(answer) == TARIFF_ACCEPTED) say_bytes(field, bytes);
        else printf("refused (%u)", tariff_number(answer));
        printf("\n");
    } while (tariff_kind(answer) != TARIFF_ACCEPTED && bytes < TARIFF_MOST_FIELD);
}

/* An absent value is read as 0. */
static void say_value(int stands, int64_t value) {
    if (stands) say_signed(value, AMOUNT);
    else printf("%*s", AMOUNT, value == 0 ? "-" : "not 0");
}

static void say_answer(const struct answer *answer) {
    struct quote quote;
    uint64_t read = read_quote(answer->record, answer->length, &quote);
    printf("  %-30s", answer->name);
    if (tariff_kind(read) != TARIFF_ACCEPTED) {
        printf("  refused (%u)\n", tariff_number(read));
        return;
    }
    printf("%5u", quote.map);
    say_value(quote.map & TARIFF_HAS_BASE, quote.base);
    say_value(quote.map & TARIFF_HAS_PREMIUM, quote.premium);
    say_value(quote.map & TARIFF_HAS_OPEN_LINES, quote.open_lines);
    printf("\n");
}

static void say_answers(void) {
    printf("what the host answers%16s%*s%*s%*s\n", "map", AMOUNT, values[0].name, AMOUNT, values[1].name, AMOUNT, values[2].name);
    for (size_t i = 0; i < answer_count; i++) say_answer(answers + i);
}

/* The premium, and how many lines of the rate list are open. */
static struct quote priced(uint32_t age) {
    struct quote quote = {TARIFF_HAS_BASE | TARIFF_HAS_PREMIUM | TARIFF_HAS_OPEN_LINES, base, 0, 0};
    uint32_t open;
    if (!price(age, count, &quote.premium, &open)) fail("there is no premium: a contradiction stands (14)");
    quote.open_lines = open;
    return quote;
}

/* The table and the age are judged before, so that a refusal by 19 is the rate list's. */
static uint32_t read_age(const char *word) {
    uint32_t age, at_fault;
    if (!read_number(word, &age) || age > TARIFF_MOST_AGE) fail("this is no age: %s", word);
    if (!tariff_good(tariff_check_bands(table, TARIFF_BAND_NUMBERS * bands, &at_fault))) fail("the table of age bands is not good");
    return age;
}

int main(int number, char **words) {
    program = "record";
    if (number != 7) fail("usage: record TARIFF RATES SCRIPT BANDS AGE ANSWERS");
    read_tariff(words[1]);
    read_script(words[3]);
    char *rates = read_rates(words[2]), *named_bands = read_bands(words[4]), *named_answers = read_lines(words[6], "file of answers", read_answer);
    uint32_t age = read_age(words[5]);
    open_session();
    follow_script();
    struct quote quote = priced(age);
    printf("the quote of a customer of %u, in cents\n  base      ", age);
    say_signed(quote.base, AMOUNT);
    printf("\n  premium   ");
    say_premium(quote.premium, (uint32_t)quote.open_lines);
    say_record(&quote);
    say_shortest(quote.premium);
    say_answers();
    free(named_answers);
    free(named_bands);
    free(rates);
    return 0;
}
