/* The proved engine for C: the functions of libcapi.a, which `rt lib` in crates/capi writes to crates/capi/out/. */
#ifndef TARIFF_H
#define TARIFF_H
#include <stddef.h>
#include <stdint.h>
#ifdef __cplusplus
extern "C" {
#endif

/* The most that a book has, and the most numbers that a book and a session need. */
#define TARIFF_FEATURES 500
#define TARIFF_RULES 1500
#define TARIFF_BOOK 7504
#define TARIFF_SESSION 11505

/* How many chapters rules are filed in; they are 0 to 31. */
#define TARIFF_CHAPTERS 32

/* An answer is its kind times 2^32, and a number. */
#define TARIFF_ACCEPTED 0 /* the number is what the call is asked for */
#define TARIFF_CONFLICT 1 /* the number names the rule that is contradicted, from 1 */
#define TARIFF_REFUSED 2  /* the number is that of docs/REFUSALS.md; nothing lent has changed, but for the age that tariff_check_bands names */
#define TARIFF_FALSE 3    /* of tariff_check_bands alone: the table is false, that is outside its ranges; there is no number */

static inline uint32_t tariff_kind(uint64_t answer) { return (uint32_t)(answer >> 32); }
static inline uint32_t tariff_number(uint64_t answer) { return (uint32_t)answer; }

/* A literal is 2 x feature, plus 1 if barred. */
static inline uint32_t tariff_wanted(uint32_t feature) { return 2 * feature; }
static inline uint32_t tariff_barred(uint32_t feature) { return 2 * feature + 1; }

/* What a lookup says: the state of the feature and, where it is wanted or barred, its level. Level n is that of the n-th choice in force, which settled
 * the feature or is the feature's own; level 0 is that of the opening; the highest is 500. In the other states there is no level, and tariff_level means
 * nothing. The number of an accepted answer is 0 if open, 4 x level + 1 if wanted, 4 x level + 2 if barred. */
#define TARIFF_IS_OPEN 0
#define TARIFF_IS_WANTED 1
#define TARIFF_IS_BARRED 2
#define TARIFF_IS_REFUSED 3
static inline uint32_t tariff_state(uint64_t answer) { return tariff_kind(answer) == TARIFF_ACCEPTED ? tariff_number(answer) % 4 : TARIFF_IS_REFUSED; }
static inline uint32_t tariff_level(uint64_t answer) { return tariff_number(answer) / 4; }

/* Of an answer of tariff_chapters, whether it wrote the totals: 1 if so; 0 where the answer is false, and where it is a refusal. */
static inline uint32_t tariff_filed(uint64_t answer) { return answer == 1; }

/* Of an answer of tariff_check_bands, whether the table is good: 1 if so; 0 where an age is at fault, and where the table is false. */
static inline uint32_t tariff_good(uint64_t answer) { return answer == 0; }

/* The places of the figures, and how many there are. */
#define TARIFF_CHOICES 0    /* choices in force */
#define TARIFF_TAKE_BACKS 1 /* accepted take-backs */
#define TARIFF_SETTLED 2    /* settled literals, choices and forced ones */
#define TARIFF_RULE 3       /* the rule that is contradicted, from 1; 0 where none is */
#define TARIFF_FIGURES 4

/* The places of the numbers of a quote, and how many there are. */
#define TARIFF_QUOTED_LENGTH 0     /* how many numbers a session on the book needs */
#define TARIFF_QUOTED_WORST 1      /* W, a ceiling of the checks that the rules cost before the first take-back, and then again after each one */
#define TARIFF_QUOTED_BACK_LINES 2 /* how many lines `b k` the script has, accepted or not: `b`, one blank, 1 to 9 digits, nothing more */
#define TARIFF_QUOTED 3

/* A rate list has three numbers for each line: its literal, 2 to 2 x V + 1 for a book of V features; TARIFF_AMOUNT or TARIFF_THOUSANDTHS; and the
 * amount in cents or the change in thousandths. */
#define TARIFF_LINE_NUMBERS 3
#define TARIFF_AMOUNT 0
#define TARIFF_THOUSANDTHS 1

/* The limits of a premium: lines of the rate list; cents of an amount and thousandths of a change, above zero and below; cents of the base, which is at least 0; and
 * cents of the running amount, above zero and below. */
#define TARIFF_MOST_LINES 200
#define TARIFF_MOST_AMOUNT 10000000
#define TARIFF_MOST_THOUSANDTHS 1000
#define TARIFF_MOST_BASE 1000000000
#define TARIFF_MOST_RUNNING 1000000000000

/* A table of age bands has three numbers for each band, the bands in any order: its first age, its last age, both in it, and its factor in thousandths. */
#define TARIFF_BAND_NUMBERS 3

/* The limits of a table: bands; years of an age; thousandths of a factor. */
#define TARIFF_MOST_BANDS 64
#define TARIFF_MOST_AGE 120
#define TARIFF_MOST_FACTOR 5000

/* A field of packed decimal is 1 to 7 bytes, two digits a byte, the highest first and in the high half; the last half byte is a sign, hexadecimal C plus, D
 * minus, and F plus in reading alone. So it holds 2 x bytes - 1 digits. */
#define TARIFF_MOST_FIELD 7

/* A quote record, which has nothing to do with the quote of tariff_quote, is one byte of bit map, then a field of 7 bytes for each bit that stands, in this
 * order; higher bits are 0. */
#define TARIFF_HAS_BASE 1
#define TARIFF_HAS_PREMIUM 2
#define TARIFF_HAS_OPEN_LINES 4
#define TARIFF_MOST_RECORD 22 /* bytes of a record with all three */

/* A lent part is a pointer and how many it holds; no two lent parts of a call overlap, and nobody else writes them meanwhile. No pointer is
 * NULL, but for a part of length 0. A call writes only what its comment says, and where it refuses, nothing, but for the age of tariff_check_bands.
 * What a session call is lent is examined first: a book at fault is 11, a session at fault or too short 12. */

/* Reads the text of a rule book into book numbers: a repeated literal stands once; a rule with a feature
 * both ways is always met, and has no literals there.
 * Accepted: 0. Writes the book's numbers, and nothing behind them.
 * Refuses: 1 to 6, 8 and 9 for what is wrong in the text, 10 where `book` is too short. */
uint64_t tariff_read(const uint8_t *text, size_t text_length, uint32_t *book, size_t book_length);

/* How long a session on this book is.
 * Accepted: how many numbers it needs. Writes nothing.
 * Refuses: 11. */
uint64_t tariff_required_length(const uint32_t *book, size_t book_length);

/* Opens a session, whatever the numbers held, and settles what the rules force.
 * Accepted: how many literals were forced; or the rule that is contradicted. Writes the session's numbers, and nothing behind them.
 * Refuses: 11, 10 where `session` is too short. */
uint64_t tariff_open(const uint32_t *book, size_t book_length, uint32_t *session, size_t session_length);

/* Makes a choice and settles what it forces.
 * Accepted: how many literals were forced; or the rule that is contradicted. Writes the session's numbers.
 * Refuses: 11, 12, 13 for a number that is no literal, 14 while a contradiction stands, 15 where the feature is settled. */
uint64_t tariff_decide(const uint32_t *book, size_t book_length, uint32_t *session, size_t session_length, uint32_t literal);

/* Takes the last k choices back, with all that was settled since the first of them; a contradiction is over.
 * Accepted: 0. Writes the session's numbers.
 * Refuses: 11, 12, 16 where k is 0 or over the choices in force that are not fixed, 17 after 1,000,000 take-backs. */
uint64_t tariff_backtrack(const uint32_t *book, size_t book_length, uint32_t *session, size_t session_length, uint32_t k);

/* Fixes the first f choices in force: no take-back reaches them any more.
 * Accepted: 0. Writes the session's numbers.
 * Refuses: 11, 12, 14 while a contradiction stands, 22 where f is below the choices that are fixed or over those in force. */
uint64_t tariff_fix(const uint32_t *book, size_t book_length, uint32_t *session, size_t session_length, uint32_t f);

/* How many choices are fixed; 0 when a session is opened.
 * Accepted: how many. Writes nothing.
 * Refuses: 11, 12. */
uint64_t tariff_fixed(const uint32_t *book, size_t book_length, const uint32_t *session, size_t session_length);

/* How a feature is settled and since which choice, in contradiction too. All sessions on the book that pass the examination with the same choices in
 * force, in whatever order they were made and whatever was taken back, have the same state of each feature, though not always the same level, or are all in
 * contradiction, where states may differ.
 * Accepted: its state and level, which tariff_state and tariff_level take out of the answer. Writes nothing.
 * Refuses: 11, 12, 13 for a number that is no feature. */
uint64_t tariff_lookup(const uint32_t *book, size_t book_length, const uint32_t *session, size_t session_length, uint32_t feature);

/* The settled literals behind the first `before`, in the order in which they were settled.
 * Accepted: how many there are. Writes as many of them as fit to `out`, and nothing behind them.
 * Refuses: 11, 12. */
uint64_t tariff_trail_from(const uint32_t *book, size_t book_length, const uint32_t *session, size_t session_length,
                           uint32_t before, uint32_t *out, size_t out_length);

/* The figures of the session, at the places above.
 * Accepted: 4, how many there are. Writes as many of them as fit to `out`, and nothing behind them.
 * Refuses: 11, 12. */
uint64_t tariff_figures(const uint32_t *book, size_t book_length, const uint32_t *session, size_t session_length,
                        uint32_t *out, size_t out_length);

/* The checks that each rule has cost, rule 1 first.
 * Accepted: how many rules there are. Writes as many of the counts as fit to `out`, and nothing behind them.
 * Refuses: 11, 12. */
uint64_t tariff_checks(const uint32_t *book, size_t book_length, const uint32_t *session, size_t session_length,
                       uint32_t *out, size_t out_length);

/* The sum of all checks.
 * Accepted: 0. Writes the sum to *sum.
 * Refuses: 11, 12. */
uint64_t tariff_total(const uint32_t *book, size_t book_length, const uint32_t *session, size_t session_length, uint64_t *sum);

/* The checks that each chapter of rules has cost. `chapters` has a chapter for each rule, 0 to 31, rule 1 first; what lies behind these is not looked at.
 * Accepted: 1, true: writes the 32 sums to `totals`, chapter 0 first, and nothing behind them; together they are the sum of all checks. Or 0, false, where a
 * rule's chapter is over 31, there are fewer chapters than rules, or `totals` is shorter than 32: writes nothing.
 * False is accepted, and a refusal is not 0: ask tariff_filed whether the totals are written.
 * Refuses: 11, 12. */
uint64_t tariff_chapters(const uint32_t *book, size_t book_length, const uint32_t *session, size_t session_length,
                         const uint32_t *chapters, size_t chapters_length, uint64_t *totals, size_t totals_length);

/* What is known before a session is opened: how many numbers it needs, and how many checks a script costs at most. `script` has the bytes of the whole
 * script, as `desk` reads it from its standard input. Run on this book it never costs more checks than the quoted ceiling, W x (lines `b k` + 1),
 * whatever is refused on the way; and tariff_open refuses by 10 exactly if `session` is shorter than the quoted length.
 * Accepted: TARIFF_QUOTED, how many numbers there are at the places above. Writes as many of them as fit to `out`, and nothing behind them,
 * and the ceiling to *ceiling.
 * Refuses: 11, then 17 where the script has more than 1,000,000 lines `b k`. */
uint64_t tariff_quote(const uint32_t *book, size_t book_length, const uint8_t *script, size_t script_length,
                      uint32_t *out, size_t out_length, uint64_t *ceiling);

/* The premium in cents from what the session has settled. From `base` on, the lines of the rate list apply in list order where their literal is true: a line
 * adds its amount, or running amount x thousandths / 1000, rounded to the nearest cent, halves away from zero.
 * Accepted: the number of lines whose feature is open. Writes the final amount to *amount.
 * Refuses: 11, 12; 14 in contradiction; then 19 where the base or a line, whether it applies or not, is outside its range above, a line is of another kind
 * than the two, or `lines` has over 200 lines or is no whole number of them; then 20 where after a line the running amount is outside its range above. */
uint64_t tariff_price(const uint32_t *book, size_t book_length, const uint32_t *session, size_t session_length,
                      int64_t base, const int32_t *lines, size_t lines_length, int64_t *amount);

/* Whether a table of age bands is good: every age from 0 to 120 lies in exactly one band.
 * Accepted: 0, it is good. Writes nothing.
 * Refuses: 25 where the lowest age at fault lies in no band, 26 where it lies in several. Writes that age to *age, and nothing else.
 * TARIFF_FALSE where a band's last age is over 120 or under its first, its factor is over 5,000, there are over 64 bands or `table` is no whole number of
 * them, whatever ages are at fault. Writes nothing.
 * False is neither accepted nor refused: ask tariff_good whether the table is good. */
uint64_t tariff_check_bands(const uint32_t *table, size_t table_length, uint32_t *age);

/* The premium as tariff_price gives it, from another start on: before the first line the base becomes base x factor of the customer's age / 1000, rounded to
 * the nearest cent, halves up. The range of the base is that of `base` as given.
 * Accepted: the number of lines whose feature is open. Writes the final amount to *amount.
 * Refuses: 11, 12; 14 in contradiction; then 19 as tariff_price does, and where `age` is over 120 or the table is false; then 25 or 26 where the table is not
 * good, whatever the age; then 20. */
uint64_t tariff_price_for_age(const uint32_t *book, size_t book_length, const uint32_t *session, size_t session_length, int64_t base,
                              const uint32_t *table, size_t table_length, uint32_t age, const int32_t *lines, size_t lines_length, int64_t *amount);

/* Writes a value as a field of so many bytes; zero with C.
 * Accepted: how many bytes, which is `bytes`. Writes the field to `out`, and nothing behind it.
 * Refuses: 23 where `bytes` is 0 or over 7; then 24 where the value has more than 2 x bytes - 1 digits; then 10 where `out` is shorter than `bytes`. */
uint64_t tariff_write_field(int64_t value, size_t bytes, uint8_t *out, size_t out_length);

/* Reads a field, which is all of `field`; a minus zero is zero.
 * Accepted: 0. Writes the value to *value.
 * Refuses: 23 where `field` is of 0 bytes or of over 7, a digit's half byte is over 9, or the last half byte is another than C, D and F. */
uint64_t tariff_read_field(const uint8_t *field, size_t field_length, int64_t *value);

/* Writes a quote record: the map, and of the three values those whose bit stands in it. The others are not looked at.
 * Accepted: how many bytes, 1 + 7 x bits that stand. Writes the record to `out`, and nothing behind it.
 * Refuses: 23 where the map has a higher bit set; then 24 where a value whose bit stands has more than 13 digits; then 10 where `out` is too short. */
uint64_t tariff_write_quote(uint8_t map, int64_t base, int64_t premium, int64_t open_lines, uint8_t *out, size_t out_length);

/* Reads a quote record, which is all of `quote`.
 * Accepted: the map. Writes the three values to their places, 0 where the bit does not stand.
 * Refuses: 23 where the map has a higher bit set, `quote` is not 1 + 7 x bits that stand long, or a field is refused by 23. */
uint64_t tariff_read_quote(const uint8_t *quote, size_t quote_length, int64_t *base, int64_t *premium, int64_t *open_lines);

#ifdef __cplusplus
}
#endif
#endif
