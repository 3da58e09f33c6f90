#include "talk.h"
#include "desk/refusal.h"
#include "typing/typing.h"

#include <stdarg.h>
#include <string.h>

static size_t put_arguments(struct talk *talk, const char *format, va_list arguments)
{
    size_t at = talk->length;

    talk->length += (size_t)vsnprintf(talk->line + at, sizeof talk->line - at, format, arguments);
    return at;
}

size_t start_line(struct talk *talk, const char *format, ...)
{
    va_list arguments;

    talk->length = 0;
    for (size_t blanks = one_in(talk->random, 6) ? below(talk->random, 4) : 0; blanks > 0; blanks--)
        talk->line[talk->length++] = ' ';
    va_start(arguments, format);
    size_t at = put_arguments(talk, format, arguments);
    va_end(arguments);
    return at;
}

size_t put(struct talk *talk, const char *format, ...)
{
    va_list arguments;

    va_start(arguments, format);
    size_t at = put_arguments(talk, format, arguments);
    va_end(arguments);
    return at;
}

size_t put_cell(struct talk *talk, uint32_t cell)
{
    size_t at = put(talk, one_in(talk->random, 6) ? "\t" : " ");

    if (cell >= CONSTANTS && cell < FIRST_VARIABLE)
        put(talk, "m%u", (unsigned)(cell - CONSTANTS));
    else
        put(talk, "%u", (unsigned)cell);
    return at + 1;
}

static bool is_same_plot(const struct any_plot *plot)
{
    const uint32_t *header = plotask_const_header_words(&desk.plot.header);

    return memcmp(header, plot->header, HEADER_WORDS * sizeof *header) == 0 &&
           memcmp(desk.plot.words, plot->words, plot->length * sizeof *plot->words) == 0;
}

static bool type_line(struct talk *talk, const char *expected, enum line_end wanted)
{
    note_desk();
    enum line_end end = type_bytes(talk->line, talk->length);
    bool same_answer = end == wanted && strcmp(last_answer(), expected) == 0;
    bool unchanged = wanted == LINE_DONE || is_as_noted();
    bool same_plot = is_same_plot(&talk->account.plot);

    if (same_answer && unchanged && same_plot)
        return true;
    print_bytes("typed:   ", talk->line, talk->length);
    print_bytes("expected:", expected, strlen(expected));
    print_bytes("answered:", last_answer(), strlen(last_answer()));
    if (!unchanged)
        puts("the refused line has changed the desk");
    if (!same_plot)
        puts("the desk has another plot than the account");
    return false;
}

bool type_accepted(struct talk *talk)
{
    return type_line(talk, talk->account.answer, LINE_DONE);
}

static bool type_refused_for(struct talk *talk, uint32_t number, size_t at, const char *before, const char *text,
                             const char *after)
{
    char expected[2 * FAULT_BYTES];

    snprintf(expected, sizeof expected, "refused %u, column %zu: %s%s%s\n", (unsigned)number, at + 1, before, text,
             after);
    return type_line(talk, expected, LINE_REFUSED);
}

bool type_refused(struct talk *talk, uint32_t number, size_t at, const char *before, const char *after)
{
    return type_refused_for(talk, number, at, before, meaning(number), after);
}

bool type_refused_word(struct talk *talk, uint32_t number, size_t at, const char *before, const struct spelled *word)
{
    if (number != PLOTASK_UNBOUND_VARIABLE)
        return type_refused(talk, number, at, before, "");
    return type_refused_for(
        talk, number, at, before,
        word->what == SPELLED_VARIABLE
            ? "a variable above v15, or more than 16 names and variables within one another"
            : "a variable without a value: the row asked about has no cell for it, and no some or every names it",
        "");
}
