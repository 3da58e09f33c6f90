#include "tally.h"
#include "support/checks.h"
#include "typing/typing.h"

#include <inttypes.h>
#include <string.h>

static uint64_t lines[TYPED_COMMANDS][NUMBERS];
static uint64_t cases[MET_CASES];

static const char *const command_names[TYPED_COMMANDS] = {
#define COMMAND(name, text) [TYPED_##name] = text,
    EVERY_COMMAND(COMMAND)
#undef COMMAND
        [TYPED_OTHER] = "other"};

static const char *const case_texts[MET_CASES] = {
#define CASE(name, text) [MET_##name] = text,
    EVERY_CASE(CASE)
#undef CASE
};

/* The refusals that random lines of a command have to meet, besides being accepted and not done; ended by 0. */
static const uint32_t possible[TYPED_COMMANDS][16] = {
    [TYPED_SHEET] = {12, 13},
    [TYPED_ENTER] = {14, 16, 17, 27, 41, 42},
    [TYPED_FILL] = {16, 29, 41, 43, 47},
    [TYPED_TAKE] = {41, 48},
    [TYPED_CENSUS] = {41},
    [TYPED_NAME] = {21, 22, 24, 25, 41},
    [TYPED_ASK] = {21, 22, 24, 25, 26, 41, 46},
    [TYPED_LOAD] = {11, 12, 13, 14, 15, 16, 17, 18, 42},
    [TYPED_SAVE] = {41},
};

static bool is_text(const char *bytes, size_t length, const char *text)
{
    return strlen(text) == length && memcmp(bytes, text, length) == 0;
}

enum typed_command command_of(const char *bytes, size_t length)
{
    static const char letters[] = "abcdefghijklmnopqrstuvwxyzABCDEFGHIJKLMNOPQRSTUVWXYZ0123456789_";
    size_t at = 0, end;

    while (at < length && (bytes[at] == ' ' || bytes[at] == '\t'))
        at++;
    for (end = at; end < length && bytes[end] != '\0' && strchr(letters, bytes[end]); end++)
        ;
    if (at < length && bytes[at] == '?')
        return TYPED_HELP;
    for (int command = 0; command < TYPED_OTHER; command++)
        if (is_text(bytes + at, end - at, command_names[command]))
            return (enum typed_command)command;
    for (uint32_t sheet = 0; sheet < desk.plot.header.relations; sheet++)
        if (is_text(bytes + at, end - at, desk.plot.sheets[sheet].name))
            return TYPED_ENTER;
    return TYPED_OTHER;
}

void meet(enum met_case met)
{
    cases[met]++;
}

void count_line(enum typed_command command, uint32_t number)
{
    lines[command][number]++;
}

static void check_command(enum typed_command command)
{
    printf("%-9s accepted:%" PRIu64 " not done:%" PRIu64, command_names[command], lines[command][0],
           lines[command][NOT_DONE]);
    check(lines[command][0] > 0);
    check(lines[command][NOT_DONE] > 0);
    for (size_t i = 0; possible[command][i] != 0; i++)
        check(lines[command][possible[command][i]] > 0);
    for (uint32_t number = NOT_DONE + 1; number < NUMBERS; number++)
        if (lines[command][number] > 0)
            printf(" %" PRIu32 ":%" PRIu64, number, lines[command][number]);
    printf("\n");
}

void check_tally(void)
{
    for (int command = 0; command < TYPED_COMMANDS; command++)
        check_command((enum typed_command)command);
    for (size_t i = 0; i < MET_CASES; i++) {
        printf("%8" PRIu64 "  %s\n", cases[i], case_texts[i]);
        check(cases[i] > 0);
    }
}
