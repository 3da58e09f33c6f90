#include "expected.h"

#include <stdarg.h>
#include <stdio.h>
#include <string.h>

void expect_line(struct expected *expected, const char *format, ...)
{
    struct expected_line *line = &expected->lines[expected->count++];
    va_list values;

    va_start(values, format);
    vsnprintf(line->text, PAGE_LINE, format, values);
    va_end(values);
    line->is_start = false;
}

void expect_refused(struct expected *expected, uint32_t number)
{
    expect_line(expected, "refused %u, column ", (unsigned)number);
    expected->lines[expected->count - 1].is_start = true;
}

/* What is said after a verdict and its looks. */
static const char *ways_to_ink(const struct answer *answer, bool is_plain)
{
    if (is_settled(answer))
        return "it stays so however the marks are filled in";
    if (is_plain)
        return "some way to ink the marks makes it false";
    return "the rules could not tell; as far as they go, it may hold for every way to ink the marks";
}

void expect_answer(struct expected *expected, const struct answer *answer, bool is_plain)
{
    char text[ANSWER_BYTES];

    if (is_refused(answer)) {
        expect_refused(expected, answer->number);
        return;
    }
    write_answer(answer, text);
    expect_line(expected, "%s: %s", text, ways_to_ink(answer, is_plain));
}

bool is_expected(const struct expected_line *line, const char *text)
{
    return line->is_start ? strncmp(line->text, text, strlen(line->text)) == 0 : strcmp(line->text, text) == 0;
}
