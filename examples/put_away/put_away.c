/* Opens a session on a tariff, fixes its first choice, puts its numbers away in a file, takes them up again and goes on; then damages one number,
 * is refused a take-back of the fixed choice, and runs into a contradiction. */
#include <tariff.h>
#include <stdio.h>
#include <stdlib.h>
#include <string.h>

static uint8_t text[60001];
static uint32_t book[TARIFF_BOOK];
static uint32_t session[TARIFF_SESSION];

static void fail(const char *what) {
    fprintf(stderr, "put_away: %s\n", what);
    exit(1);
}

/* Says a call and what it answered: a number, the rule that is contradicted, or the number of a refusal. */
static void say(const char *call, uint64_t answer) {
    uint32_t number = tariff_number(answer);
    switch (tariff_kind(answer)) {
    case TARIFF_ACCEPTED: printf("%s: accepted %u\n", call, number); break;
    case TARIFF_CONFLICT: printf("%s: contradicts rule %u\n", call, number); break;
    case TARIFF_REFUSED: printf("%s: refused %u\n", call, number); break;
    }
}

/* Says a lookup, and how the feature is settled; a refused one does not tell it. */
static void say_lookup(const char *call, uint64_t answer) {
    say(call, answer);
    switch (tariff_state(answer)) {
    case TARIFF_IS_OPEN: printf("it is open\n"); break;
    case TARIFF_IS_WANTED: printf("it is wanted, at level %u\n", tariff_level(answer)); break;
    case TARIFF_IS_BARRED: printf("it is barred, at level %u\n", tariff_level(answer)); break;
    case TARIFF_IS_REFUSED: printf("it is not told\n"); break;
    }
}

static void read_tariff(const char *path) {
    FILE *file = fopen(path, "rb");
    if (!file) fail("no such tariff");
    size_t length = fread(text, 1, sizeof text, file);
    fclose(file);
    uint64_t answer = tariff_read(text, length, book, TARIFF_BOOK);
    say("read", answer);
    if (tariff_kind(answer) != TARIFF_ACCEPTED) exit(1);
}

/* The numbers are the session: as many as the book asks for, and no more, go to the file. */
static void put_away(const char *path, size_t needed) {
    FILE *file = fopen(path, "wb");
    if (!file || fwrite(session, sizeof *session, needed, file) != needed || fclose(file)) fail("not written");
}

/* Whatever the file holds, the next call examines it. */
static size_t take_up(const char *path) {
    FILE *file = fopen(path, "rb");
    if (!file) fail("nothing was put away");
    size_t length = fread(session, sizeof *session, TARIFF_SESSION, file);
    fclose(file);
    return length;
}

/* Says how far the session is, and what each rule has cost. */
static void say_figures(size_t length) {
    static uint32_t figures[TARIFF_FIGURES], checks[TARIFF_RULES];
    uint64_t total;
    say("figures", tariff_figures(book, TARIFF_BOOK, session, length, figures, TARIFF_FIGURES));
    printf("choices %u, take-backs %u, settled %u, rule contradicted %u\n", figures[TARIFF_CHOICES],
           figures[TARIFF_TAKE_BACKS], figures[TARIFF_SETTLED], figures[TARIFF_RULE]);
    uint64_t rules = tariff_checks(book, TARIFF_BOOK, session, length, checks, TARIFF_RULES);
    say("checks", rules);
    for (uint32_t rule = 1; rule <= tariff_number(rules); rule++)
        printf("rule %u: %u\n", rule, checks[rule - 1]);
    say("total", tariff_total(book, TARIFF_BOOK, session, length, &total));
    printf("checks in all %llu\n", (unsigned long long)total);
}

int main(int count, char **words) {
    if (count != 3) fail("usage: put_away TARIFF FILE");
    read_tariff(words[1]);
    size_t needed = tariff_number(tariff_required_length(book, TARIFF_BOOK));
    say("open", tariff_open(book, TARIFF_BOOK, session, needed));
    say("choose -1", tariff_decide(book, TARIFF_BOOK, session, needed, tariff_barred(1)));
    say("fix 1", tariff_fix(book, TARIFF_BOOK, session, needed, 1));
    put_away(words[2], needed);
    memset(session, 255, sizeof session);
    say_lookup("lookup 1 in other numbers", tariff_lookup(book, TARIFF_BOOK, session, needed, 1));
    size_t length = take_up(words[2]);
    say_lookup("lookup 1 in the numbers taken up", tariff_lookup(book, TARIFF_BOOK, session, length, 1));
    say("fixed in the numbers taken up", tariff_fixed(book, TARIFF_BOOK, session, length));
    say("choose -2", tariff_decide(book, TARIFF_BOOK, session, length, tariff_barred(2)));
    say_figures(length);
    session[5] ^= 1;
    say("back 1 with the first settled literal turned", tariff_backtrack(book, TARIFF_BOOK, session, length, 1));
    session[5] ^= 1;
    say("back 2, which reaches the fixed choice", tariff_backtrack(book, TARIFF_BOOK, session, length, 2));
    say("back 1", tariff_backtrack(book, TARIFF_BOOK, session, length, 1));
    say("choose 5", tariff_decide(book, TARIFF_BOOK, session, length, tariff_wanted(5)));
    say_figures(length);
    say("choose -3 while the contradiction stands", tariff_decide(book, TARIFF_BOOK, session, length, tariff_barred(3)));
    say("back 1", tariff_backtrack(book, TARIFF_BOOK, session, length, 1));
    say("choose -3", tariff_decide(book, TARIFF_BOOK, session, length, tariff_barred(3)));
    say_figures(length);
    return 0;
}
