/* Makes the session of a script on a tariff and says of each chapter of the tariff how many rules it has and what checks they have cost.
 * A comment that begins with `c ==` is a heading, as `c == Liability`, and begins a chapter; the first is chapter 0. */
#include "follow.h"

static uint32_t headings;
static const char *names[TARIFF_CHAPTERS];
static uint32_t sizes[TARIFF_CHAPTERS]; /* how many rules begin under each heading */
static size_t rules;
static uint32_t chapters[TARIFF_RULES]; /* the chapter of each of them, rule 1 first */

/* Behind `c ==` stand a blank and the name; a byte 13 at the end of the line is no part of it. */
static void begin_chapter(char *words) {
    size_t length = strlen(words);
    if (length > 0 && words[length - 1] == '\r') words[--length] = '\0';
    if (length < 2 || words[0] != ' ' || words[1] == ' ') fail("a heading is not `c ==`, a blank and a name");
    if (headings == TARIFF_CHAPTERS) fail("the tariff has more than 32 headings");
    names[headings++] = words + 1;
}

/* A rule belongs to the last heading before its first number. */
static void file_rule(void) {
    if (headings == 0) fail("a rule begins before the first heading");
    chapters[rules++] = headings - 1;
    sizes[headings - 1]++;
}

/* A rule begins at the first number behind the 0 of the rule before, and may run over lines. */
static void file_numbers(const char *line) {
    static int closed = 1;
    char *end;
    for (long number = strtol(line, &end, 10); end != line; number = strtol(line, &end, 10)) {
        if (closed) file_rule();
        closed = number == 0;
        line = end;
    }
}

/* A comment is passed over, inside a rule too, and nothing is filed by the header, whose first word `p` is no number. */
static void file_rules(void) {
    for (char *line = strtok(text, "\n"); line; line = strtok(NULL, "\n")) {
        if (strncmp(line, "c ==", 4) == 0) begin_chapter(line + 4);
        else if (line[0] != 'c') file_numbers(line);
    }
}

/* The totals are written only where the answer is true; false is accepted, too. */
static void say_chapters(void) {
    uint64_t totals[TARIFF_CHAPTERS], total;
    uint64_t answer = tariff_chapters(book, TARIFF_BOOK, session, needed, chapters, rules, totals, TARIFF_CHAPTERS);
    expect_accepted(answer);
    if (!tariff_filed(answer)) fail("the chapters do not fit the rules");
    for (uint32_t chapter = 0; chapter < headings; chapter++) {
        printf("%3u %s: ", chapter, names[chapter]);
        say_count(sizes[chapter], "rule");
        printf(", ");
        say_count(totals[chapter], "check");
        printf("\n");
    }
    expect_accepted(tariff_total(book, TARIFF_BOOK, session, needed, &total));
    say_count(total, "check");
    printf(" in all\n");
}

int main(int count, char **words) {
    program = "chapters";
    if (count != 3) fail("usage: chapters TARIFF SCRIPT");
    read_tariff(words[1]);
    file_rules();
    read_script(words[2]);
    open_session();
    follow_script();
    say_chapters();
    return 0;
}
