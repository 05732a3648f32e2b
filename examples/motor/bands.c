/* Says what is wrong in a table of age bands; of a good one it says for each band the premium of a script's session on a tariff by a rate list, in cents. */
#include "bands.h"

/* As a table of its own: such a table leaves ages in no band, but it is false only where the band is outside its ranges. */
static int is_false(size_t i) {
    uint32_t age;
    return tariff_kind(tariff_check_bands(band_at(i), TARIFF_BAND_NUMBERS, &age)) == TARIFF_FALSE;
}

/* The checker names no band and no age of a false table. */
static void say_false(void) {
    size_t i = 0;
    while (i < bands && !is_false(i)) i++;
    printf("the table is false: ");
    if (i == bands) printf("it has more than %d bands\n", TARIFF_MOST_BANDS);
    else printf("%s, %u to %u by %u, is outside its ranges: ages to %d, the first not over the last, by at most %d\n", band_names[i], band_at(i)[0],
                band_at(i)[1], band_at(i)[2], TARIFF_MOST_AGE, TARIFF_MOST_FACTOR);
}

static void say_several(uint32_t age) {
    const char *before = ": ";
    printf("age %u lies in several bands (26)", age);
    for (size_t i = 0; i < bands; i++) {
        if (age < band_at(i)[0] || band_at(i)[1] < age) continue;
        printf("%s%s", before, band_names[i]);
        before = ", ";
    }
    printf("\n");
}

/* Says what the checker says of the table, and answers whether it is good. */
static int judge(void) {
    uint32_t age;
    uint64_t answer = tariff_check_bands(table, TARIFF_BAND_NUMBERS * bands, &age);
    if (tariff_good(answer)) printf("the table is good: every age from 0 to %d lies in exactly one band\n", TARIFF_MOST_AGE);
    else if (tariff_kind(answer) == TARIFF_FALSE) say_false();
    else if (tariff_number(answer) == 25) printf("age %u lies in no band (25)\n", age);
    else say_several(age);
    return (int)tariff_good(answer);
}

/* The premium of its first age is that of all its ages. By no lines at all it is the scaled base. */
static void say_band(size_t i) {
    const uint32_t *band = band_at(i);
    int64_t scaled, amount;
    uint32_t open;
    price(band[0], 0, &scaled, &open);
    price(band[0], count, &amount, &open);
    printf("  %3u to %-3u  %-25s", band[0], band[1], band_names[i]);
    say_signed(band[2], 7);
    say_signed(scaled, AMOUNT);
    say_premium(amount, open);
}

/* In the order of age: at each age the band that begins there. */
static void say_bands(void) {
    int64_t amount;
    uint32_t open;
    if (!price(0, 0, &amount, &open)) {
        printf("there is no premium: a contradiction stands (14)\n");
        return;
    }
    printf("the premium at the end by age, in cents\n  %-10s  %-25s%7s%*s%*s\n", "ages", "band", "factor", AMOUNT, "base x factor", AMOUNT, "premium");
    for (uint32_t age = 0; age <= TARIFF_MOST_AGE; age++)
        for (size_t i = 0; i < bands; i++)
            if (band_at(i)[0] == age) say_band(i);
}

int main(int number, char **words) {
    program = "bands";
    if (number != 5) fail("usage: bands TARIFF RATES SCRIPT BANDS");
    read_tariff(words[1]);
    char *rates = read_rates(words[2]);
    read_script(words[3]);
    char *named_bands = read_bands(words[4]);
    int good = judge();
    if (good) {
        open_session();
        follow_script();
        say_bands();
    }
    free(named_bands);
    free(rates);
    return good ? 0 : 1;
}
