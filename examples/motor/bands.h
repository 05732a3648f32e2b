/* Shared by the examples that price for an age: reads a table of age bands and asks for the premium at an age.
 * A line of the table is a name, the first age, the last age and the factor in thousandths, as `young: 21 24 1620`. */
#ifndef BANDS_H
#define BANDS_H
#include "rates.h"

static size_t bands; /* how many there are */
static const char *band_names[TARIFF_MOST_BANDS + 1];
static uint32_t table[TARIFF_BAND_NUMBERS * (TARIFF_MOST_BANDS + 1)];

static inline const uint32_t *band_at(size_t i) { return table + TARIFF_BAND_NUMBERS * i; }

/* One band more than a good table may have is kept, so that it is the checker that finds too many; any others would not change what it says. */
static void add_band(const char *name, int first, int last, int factor) {
    uint32_t *band = table + TARIFF_BAND_NUMBERS * bands;
    if (bands > TARIFF_MOST_BANDS) return;
    band_names[bands++] = name;
    band[0] = (uint32_t)first;
    band[1] = (uint32_t)last;
    band[2] = (uint32_t)factor;
}

/* The name ends at the first colon. Between two numbers there must be a blank, so that one of ten digits is not read as two. */
static void read_band(char *line) {
    int first = 0, last = 0, factor = 0, end = 0;
    char *colon = strchr(line, ':');
    int taken = colon ? sscanf(colon + 1, "%9d%*1[ \t]%9d%*1[ \t]%9d %n", &first, &last, &factor, &end) : 0;
    if (taken != 3 || colon[1 + end] != '\0' || first < 0 || last < 0 || factor < 0) fail("this is no band: %s", line);
    *colon = '\0';
    add_band(line, first, last, factor);
}

/* The names of the bands lie in the bytes that are answered. */
static char *read_bands(const char *path) { return read_lines(path, "table of age bands", read_band); }

/* Whether there is a premium at an age; by the first lines alone, with how many of them are open. */
static int price(uint32_t age, size_t first, int64_t *amount, uint32_t *open) {
    uint64_t answer = tariff_price_for_age(book, TARIFF_BOOK, session, needed, base, table, TARIFF_BAND_NUMBERS * bands, age, lines,
                                           TARIFF_LINE_NUMBERS * first, amount);
    *open = tariff_number(answer);
    return has_premium(answer);
}

#endif
