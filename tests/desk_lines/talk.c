#include "talk.h"
#include "desk/refusal.h"
#include "support/checks.h"

#include <stdlib.h>
#include <string.h>

void start_with(const char *const *lines)
{
    start_desk();
    for (; *lines; lines++)
        type(*lines);
}

void type(const char *line)
{
    if (!check(type_bytes(line, strlen(line)) == LINE_DONE))
        printf("refused: %s\n%s", line, last_answer());
}

/* Types a line, and checks the answer and how the line ended. */
static void check_answer(const char *bytes, size_t length, const char *answer, enum line_end wanted)
{
    enum line_end end = type_bytes(bytes, length);
    const char *given = last_answer();
    size_t answered = strlen(answer);
    bool same =
        answered == 0 ? *given == '\0' : strncmp(given, answer, answered) == 0 && strcmp(given + answered, "\n") == 0;

    if (check(same && end == wanted))
        return;
    print_bytes("typed:   ", bytes, length);
    print_bytes("expected:", answer, answered);
    print_bytes("answered:", given, strlen(given));
}

void says_bytes(const char *bytes, size_t length, const char *answer)
{
    check_answer(bytes, length, answer, LINE_DONE);
}

void says(const char *line, const char *answer)
{
    says_bytes(line, strlen(line), answer);
}

void ends(const char *line)
{
    check_answer(line, strlen(line), "", LINE_QUIT);
}

static void check_unchanged(const char *bytes, size_t length)
{
    if (!check(is_as_noted()))
        print_bytes("the desk was changed by the refused line", bytes, length);
}

static void check_refused(const char *bytes, size_t length, const char *answer)
{
    note_desk();
    check_answer(bytes, length, answer, LINE_REFUSED);
    check_unchanged(bytes, length);
}

/* Copies a line without its ^, and returns the column of that, from 1. */
static size_t take_caret(const char *line, char typed[LINE_ROOM])
{
    size_t at = strcspn(line, "^");

    if (line[at] == '\0' || strlen(line) > LINE_ROOM) {
        printf("a line without ^, or too long: %s\n", line);
        exit(2);
    }
    memcpy(typed, line, at);
    strcpy(typed + at, line + at + 1);
    return at + 1;
}

/* Whether what ends before a place is the start of a "some" or "every". */
static bool after_quantifier(const char *typed, size_t at)
{
    return (at >= 5 && strncmp(typed + at - 5, "some(", 5) == 0) ||
           (at >= 6 && strncmp(typed + at - 6, "every(", 6) == 0);
}

/* What a number means at a place: a variable of a "some" or "every" has another text than one of a term. */
static const char *meaning_there(uint32_t number, const char *typed, size_t at)
{
    if (number != PLOTASK_UNBOUND_VARIABLE)
        return meaning(number);
    return after_quantifier(typed, at)
               ? "a variable above v15, or more than 16 names and variables within one another"
               : "a variable without a value: the row asked about has no cell for it, and no some or every names it";
}

void refuses_with(const char *line, uint32_t number, const char *before, const char *after)
{
    char typed[LINE_ROOM], answer[2 * FAULT_BYTES];
    size_t column = take_caret(line, typed);

    snprintf(answer, sizeof answer, "refused %u, column %zu: %s%s%s", (unsigned)number, column, before,
             meaning_there(number, typed, column - 1), after);
    check_refused(typed, strlen(typed), answer);
}

void refuses(const char *line, uint32_t number)
{
    refuses_with(line, number, "", "");
}

void not_done_bytes(const char *bytes, size_t length, size_t column, const char *text)
{
    char answer[2 * FAULT_BYTES];

    snprintf(answer, sizeof answer, "not done, column %zu: %s", column, text);
    check_refused(bytes, length, answer);
}

void not_done(const char *line, const char *text)
{
    char typed[LINE_ROOM];
    size_t column = take_caret(line, typed);

    not_done_bytes(typed, strlen(typed), column, text);
}

void misses(const char *line, const char *what, const char *found)
{
    char text[FAULT_BYTES];

    if (found == END)
        snprintf(text, sizeof text, "expected %s, found the end of the line", what);
    else
        snprintf(text, sizeof text, "expected %s, found \"%s\"", what, found);
    not_done(line, text);
}

void misses_each(const struct misread *lines, size_t count)
{
    for (size_t i = 0; i < count; i++)
        misses(lines[i].line, lines[i].expected, lines[i].found);
}

void cannot_read(const char *line)
{
    static const char start[] = "not done, column ";

    note_desk();
    enum line_end end = type_bytes(line, strlen(line));
    if (!check(end == LINE_REFUSED && strncmp(last_answer(), start, sizeof start - 1) == 0))
        printf("typed:    %s\nanswered: %s", line, last_answer());
    check_unchanged(line, strlen(line));
}

void expect(const char *what, bool holds)
{
    if (!check(holds))
        printf("does not hold: %s\n", what);
}

char *repeat(char *to, const char *text, size_t times)
{
    *to = '\0';
    for (size_t i = 0; i < times; i++)
        to += sprintf(to, "%s", text);
    return to;
}
