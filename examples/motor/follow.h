/* Shared by the examples that follow a script: reads a tariff, opens a session on it and makes the choices and take-backs of the script. */
#ifndef FOLLOW_H
#define FOLLOW_H
#include <tariff.h>
#include <stdarg.h>
#include <stdio.h>
#include <stdlib.h>
#include <string.h>

static const char *program; /* its name, which main sets */
static char text[60002];    /* a byte more than a tariff may have, and a 0 */
static uint32_t book[TARIFF_BOOK];
static uint32_t session[TARIFF_SESSION];
static size_t needed;
static uint32_t choices;                     /* in force */
static uint32_t chosen[TARIFF_FEATURES + 1]; /* the feature of each of them, from choice 1 on */
static const char *feature_names[TARIFF_FEATURES + 1];
static char *script;
static size_t script_length; /* how many bytes it has */

/* What the program does with the answer of the opening and of each choice and take-back that is not refused; nothing, unless main sets it. */
static void (*after_step)(uint64_t answer);

static void fail(const char *format, ...) {
    va_list words;
    va_start(words, format);
    fflush(stdout);
    fprintf(stderr, "%s: ", program);
    vfprintf(stderr, format, words);
    va_end(words);
    fprintf(stderr, "\n");
    exit(1);
}

/* Of calls that tell of a session. */
static inline void expect_accepted(uint64_t answer) {
    if (tariff_kind(answer) != TARIFF_ACCEPTED) fail("the session is refused");
}

/* With commas between thousands. */
static inline void say_number(uint64_t number) {
    if (number >= 1000) say_number(number / 1000);
    printf(number >= 1000 ? ",%03u" : "%u", (unsigned)(number % 1000));
}

static inline void say_count(uint64_t count, const char *word) {
    say_number(count);
    printf(" %s%s", word, count == 1 ? "" : "s");
}

/* All bytes of a file, with a 0 behind them; a message calls it by the word. */
static inline char *read_bytes(const char *path, const char *word, size_t *length) {
    char *bytes = NULL;
    size_t room = 0;
    FILE *file = fopen(path, "rb");
    if (!file) fail("no such %s", word);
    *length = 0;
    do {
        room = 2 * room + 4096;
        bytes = (char *)realloc(bytes, room);
        if (!bytes) fail("no memory for the %s", word);
        *length += fread(bytes + *length, 1, room - *length, file);
    } while (*length == room);
    if (ferror(file)) fail("the %s cannot be read", word);
    fclose(file);
    bytes[*length] = '\0';
    return bytes;
}

/* A byte 0, which only a comment of an accepted tariff can hold, would end the text; it is replaced. */
static void read_tariff(const char *path) {
    FILE *file = fopen(path, "rb");
    if (!file) fail("no such tariff");
    size_t length = fread(text, 1, sizeof text - 1, file);
    fclose(file);
    if (tariff_kind(tariff_read((const uint8_t *)text, length, book, TARIFF_BOOK)) != TARIFF_ACCEPTED) fail("the tariff is refused");
    for (size_t i = 0; i < length; i++)
        if (text[i] == '\0') text[i] = '?';
}

/* A line `c 54 marten bite` of the tariff names a feature. The text is cut into its lines. */
static inline void read_names(void) {
    for (char *line = strtok(text, "\r\n"); line; line = strtok(NULL, "\r\n")) {
        unsigned feature;
        int start = 0;
        if (sscanf(line, "c %9u %n", &feature, &start) == 1 && feature <= TARIFF_FEATURES) feature_names[feature] = line + start;
    }
}

static inline const char *name_of(uint32_t feature) {
    return feature_names[feature] ? feature_names[feature] : "unnamed";
}

static inline uint64_t lookup(uint32_t feature) {
    return tariff_lookup(book, TARIFF_BOOK, session, needed, feature);
}

/* Says which choice in force, or the opening, and answers how many bytes that took. */
static inline int say_level(uint32_t level) {
    return level == 0 ? printf("the opening") : printf("choice %u, %s", level, name_of(chosen[level]));
}

static void step_made(uint64_t answer) {
    if (after_step) after_step(answer);
}

static void open_in(size_t numbers) {
    needed = numbers;
    step_made(tariff_open(book, TARIFF_BOOK, session, needed));
}

static inline void open_session(void) { open_in(tariff_number(tariff_required_length(book, TARIFF_BOOK))); }

/* A refused choice changes nothing; one that contradicts a rule is in force until it is taken back. */
static void choose(uint32_t feature, uint32_t literal) {
    uint64_t answer = tariff_decide(book, TARIFF_BOOK, session, needed, literal);
    if (tariff_kind(answer) == TARIFF_REFUSED) return;
    chosen[++choices] = feature;
    step_made(answer);
}

static void take_back(uint32_t k) {
    uint64_t answer = tariff_backtrack(book, TARIFF_BOOK, session, needed, k);
    if (tariff_kind(answer) == TARIFF_REFUSED) return;
    choices -= k;
    step_made(answer);
}

/* A number is one to nine digits, and nothing else. */
static int read_number(const char *word, uint32_t *number) {
    size_t length = strspn(word, "0123456789");
    if (length < 1 || length > 9 || word[length] != '\0') return 0;
    *number = (uint32_t)strtoul(word, NULL, 10);
    return 1;
}

/* A line is a feature, wanted, or with `-` in front barred, or `b k`; any other is passed over, as `desk` refuses it. */
static void follow_line(const char *line) {
    uint32_t number;
    if (strncmp(line, "b ", 2) == 0) {
        if (read_number(line + 2, &number)) take_back(number);
    } else if (line[0] == '-') {
        if (read_number(line + 1, &number)) choose(number, tariff_barred(number));
    } else if (read_number(line, &number)) {
        choose(number, tariff_wanted(number));
    }
}

/* Of a line 15 bytes are kept, more than a choice or a take-back has; a byte 0 is in neither. */
static void follow_byte(int byte) {
    static char line[16];
    static size_t length;
    if (byte == '\n') {
        line[length] = '\0';
        length = 0;
        follow_line(line);
    } else if (length < sizeof line - 1) {
        line[length++] = byte == 0 ? '?' : (char)byte;
    }
}

/* All of it, before the program says anything. */
static inline void read_script(const char *path) { script = read_bytes(path, "script", &script_length); }

/* The last line may lack its end; where it has it, an empty line comes behind, which is passed over. */
static inline void follow_script(void) {
    for (size_t i = 0; i < script_length; i++) follow_byte(script[i]);
    follow_byte('\n');
    free(script);
}

#endif
