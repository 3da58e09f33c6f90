#include "desk/refusal.h"
#include "parts.h"
#include "talk.h"

#include <string.h>

/*
 * Every number of enum plotask_refusal. Five of them no line at the desk can bring about: 10 is the program's alone; the
 * desk numbers a question's nodes itself (23), lends room for every card and census (44) and for every working list
 * (45), and nothing but its own fills writes its log (49). There is a meaning for them all the same.
 */
static const enum plotask_refusal numbers[] = {
    PLOTASK_INPUT_TOO_LONG,
    PLOTASK_CUT_SHORT,
    PLOTASK_BAD_RELATION_COUNT,
    PLOTASK_BAD_ARITY,
    PLOTASK_NO_SUCH_RELATION,
    PLOTASK_BIT_BEYOND_ARITY,
    PLOTASK_NOT_A_CELL,
    PLOTASK_NULLS_EXHAUSTED,
    PLOTASK_BYTES_LEFT_OVER,
    PLOTASK_BAD_QUERY_LENGTH,
    PLOTASK_BAD_NODE,
    PLOTASK_BAD_CHILD,
    PLOTASK_UNBOUND_VARIABLE,
    PLOTASK_NO_SUCH_QUERY_RELATION,
    PLOTASK_BAD_CANDIDATE,
    PLOTASK_WRONG_ROW_LENGTH,
    PLOTASK_NO_SUCH_NULL,
    PLOTASK_UNSOUND,
    PLOTASK_NO_ROOM,
    PLOTASK_NULL_ABSENT,
    PLOTASK_OUTPUT_TOO_SHORT,
    PLOTASK_BUFFER_TOO_SHORT,
    PLOTASK_BUDGET_SPENT,
    PLOTASK_LOG_TOO_SHORT,
    PLOTASK_LOG_EMPTY,
    PLOTASK_BAD_LOG,
};

static bool is_refusal(uint32_t number)
{
    for (size_t i = 0; i < COUNT_OF(numbers); i++)
        if (number == (uint32_t)numbers[i])
            return true;
    return false;
}

/* Each number has a text of its own, and no other number has one. */
static void check_meanings(void)
{
    char line[64], text[2 * FAULT_BYTES];

    START("sheet hangs lamp");
    for (uint32_t number = 0; number < 300; number++) {
        if (is_refusal(number)) {
            const char *of_it = meaning(number);
            expect("a refusal has a meaning", of_it && of_it[0] && strlen(of_it) < 160 && !strchr(of_it, '\n'));
            for (uint32_t other = 0; other < number; other++)
                expect("no two meanings are the same", !is_refusal(other) || strcmp(meaning(other), of_it) != 0);
            snprintf(line, sizeof line, number % 2 ? "help %u" : "?%u", (unsigned)number);
            snprintf(text, sizeof text, "%u: %s", (unsigned)number, of_it);
            says(line, text);
        } else {
            expect("a number without a meaning", !meaning(number));
            snprintf(line, sizeof line, "help ^%u", (unsigned)number);
            snprintf(text, sizeof text, "%u", (unsigned)number);
            misses(line, "a command or the number of a refusal", text);
        }
    }
    says("help 000046", "46: the question takes more looks than its allowance");
    misses("help ^65577", "a command or the number of a refusal", "65577");
    misses("help ^4294967337", "a command or the number of a refusal", "4294967337");
    misses("help ^999999999999999999999999999999", "a command or the number of a refusal",
           "999999999999999999999999..");
    misses("?^asks", "a command or the number of a refusal", "asks");
    says("?ask", "  ask QUESTION CELL..      asks a question, in words or by its name, of a row");
    says("help take", "  take back                takes the latest fill back");
    misses("help ^-", "a command or the number of a refusal", "-");
}

/* Without a sheet there is no plot: this comes before all else that plotask would refuse. */
static void check_unsound(void)
{
    static const char *const lines[] = {"^fill m1 5",
                                        "  ^fill m1 5",
                                        "^fill m0 1000000",
                                        "^take back",
                                        "^census",
                                        "^save desk.card",
                                        "^save none/desk.card",
                                        "enter ^0 5",
                                        "enter ^9 -",
                                        "enter ^9",
                                        "ask ^equal(1, 1)",
                                        "ask ^equal(v9, m4) 1000000 within 0",
                                        "ask ^in(0, v0) 5 unlisted",
                                        "ask ^in(8)",
                                        "question q: ^equal(1, 1)",
                                        "question q: ^some(v16, in(0, v0))"};

    START("");
    for (size_t i = 0; i < COUNT_OF(lines); i++)
        refuses(lines[i], 41);
    says("show", "no sheets yet");
    says("questions", "no questions yet");
    misses("show ^0", "the name of a sheet, or its number", "0");
    misses("enter ^hangs 5", "the name of a sheet, or its number", "hangs");
    misses("ask in(^hangs, v0) 5", "the name of a sheet, or its number", "hangs");
    refuses("sheet hangs^", 13);
    says("sheet hangs lamp", "sheet 0 is hangs, with 1 column: lamp");
    says("census", "no mark stands");
    refuses("fill ^m1 5", 43);
    refuses("^take back", 48);
}

void check_refusals(void)
{
    check_meanings();
    check_unsound();
}
