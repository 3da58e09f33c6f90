#include "parts.h"
#include "talk.h"

#include <string.h>

static const char no_term[] = "a value, a variable such as v0, or a name after some or every";
static const char no_kind[] = "in, equal, not, and, or, some or every";
static const char no_sheet[] = "the name of a sheet, or its number";
static const char no_variable[] = "a variable, v0 to v15, or a name: a letter, then letters, digits and _";
static const char open[] = "\"(\"", shut[] = "\")\"", comma[] = "\",\"";

/* Questions that cannot be read. Each is asked, and given a name. */
static const struct misread questions_misread[] = {
    {"^lamp(v0)", no_kind, "lamp"},
    {"^(in(hangs, v0))", no_kind, "("},
    {"^In(hangs, v0)", no_kind, "In"},
    {"not(^)", no_kind, ")"},
    {"not(^hangs)", no_kind, "hangs"},
    {"not(^v0)", no_kind, "v0"},
    {"and(^, in(hangs, v0))", no_kind, ","},
    {"or(in(hangs, v0), ^)", no_kind, ")"},
    {"some(x, ^)", no_kind, ")"},
    {"every(x, ^x)", no_kind, "x"},
    {"in ^hangs, v0)", open, "hangs"},
    {"in^", open, END},
    {"equal ^v0, v0)", open, "v0"},
    {"not ^in(hangs, v0)", open, "in"},
    {"and^, or(", open, ","},
    {"or ^in(hangs, v0), in(hangs, v0))", open, "in"},
    {"some ^x, in(hangs, x))", open, "x"},
    {"every ^[x]", open, "["},
    {"not(in(hangs, v0)^", shut, END},
    {"not(in(hangs, v0)^, in(hangs, v0))", shut, ","},
    {"in(hangs, v0^", shut, END},
    {"in(hangs, v0^}", shut, "}"},
    {"equal(v0, v0^", shut, END},
    {"equal(v0, v0^, v0)", shut, ","},
    {"and(in(hangs, v0), in(hangs, v0)^", shut, END},
    {"or(in(hangs, v0), in(hangs, v0)^, in(hangs, v0))", shut, ","},
    {"some(x, in(hangs, x)^", shut, END},
    {"every(x, in(hangs, x) ^in(hangs, x))", shut, "in"},
    {"equal(v0^)", comma, ")"},
    {"equal(v0 ^v0)", comma, "v0"},
    {"and(in(hangs, v0)^)", comma, ")"},
    {"or(in(hangs, v0)^", comma, END},
    {"some(x^)", comma, ")"},
    {"every(x ^in(hangs, x))", comma, "in"},
    {"some(v0^: in(hangs, v0))", comma, ":"},
    {"equal(^)", no_term, ")"},
    {"equal(v0, ^)", no_term, ")"},
    {"equal(v0, ^x)", no_term, "x"},
    {"equal(^-, v0)", no_term, "-"},
    {"equal(^V0, v0)", no_term, "V0"},
    {"equal(^v, v0)", no_term, "v"},
    {"equal(^5x, v0)", no_term, "5x"},
    {"in(hangs, ^)", no_term, ")"},
    {"in(hangs, ^hangs)", no_term, "hangs"},
    {"in(pairs, v0, ^", no_term, END},
    {"in(^)", no_sheet, ")"},
    {"in(^lamp, v0)", no_sheet, "lamp"},
    {"in(^hang, v0)", no_sheet, "hang"},
    {"in(^hangss, v0)", no_sheet, "hangss"},
    {"in(^in(hangs, v0))", no_sheet, "in"},
    {"in(^-1, v0)", no_sheet, "-"},
    {"some(^, in(hangs, v0))", no_variable, ","},
    {"every(^5, in(hangs, 5))", no_variable, "5"},
    {"some(^_x, in(hangs, _x))", no_variable, "_x"},
    {"some(^m4, in(hangs, v0))", "a variable, v0 to v15, or a name that is no mark or variable", "m4"},
    {"some(^abcdefghijklmnopq, in(hangs, v0))", "a variable, v0 to v15, or a name of at most 16 letters, digits and _",
     "abcdefghijklmnopq"},
    {"in(hangs^)", "\",\" and a term, since hangs has 1 column", ")"},
    {"in(hangs^", "\",\" and a term, since hangs has 1 column", END},
    {"in(pairs, v0^)", "\",\" and a term, since pairs has 2 columns", ")"},
    {"in(1, v0 ^v1)", "\",\" and a term, since pairs has 2 columns", "v1"},
    {"in(hangs, v0^, v1)", "\")\", since hangs has 1 column", ","},
    {"in(0, v0^, v1)", "\")\", since hangs has 1 column", ","},
    {"in(pairs, v0, v1^, v2, v3, v4, v5, v6)", "\")\", since pairs has 2 columns", ","},
    /* a sheet that the plot lacks may have up to six columns */
    {"in(2, 1, 2, 3, 4, 5, 6^, 7)", shut, ","},
};

static void check_misread(void)
{
    START("sheet hangs lamp", "sheet pairs a b");
    for (size_t i = 0; i < COUNT_OF(questions_misread); i++) {
        const struct misread *misread = &questions_misread[i];
        char line[200];
        snprintf(line, sizeof line, "ask %s", misread->line);
        misses(line, misread->expected, misread->found);
        snprintf(line, sizeof line, " question  q : %s", misread->line);
        misses(line, misread->expected, misread->found);
    }
}

static const char no_option[] = "a cell, within, unlisted or the end of the line";
static const char no_looks[] = "a number of looks, 0 to 4294967295";
static const char no_name[] = "a name for the question: a letter, then letters, digits and _";
/* What stands around a question. */
static const struct misread rests[] = {
    {"ask^", "a question or its name", END},
    {"ask ^hire 201", "a question or its name", "hire"},
    {"ask ^5", "a question or its name", "5"},
    {"ask ^)", "a question or its name", ")"},
    {"ask in(hangs, v0)^) 5", no_option, ")"},
    {"ask in(hangs, v0) 5 ^x", no_option, "x"},
    {"ask in(hangs, v0) ^v0", no_option, "v0"},
    {"ask in(hangs, v0) 5^, 6", "a space after a cell", ","},
    {"ask in(hangs, v0) ^-", no_option, "-"},
    {"ask in(hangs, v0) ^5x", no_option, "5x"},
    {"ask in(hangs, v0) 5 unlisted ^6", "within or the end of the line", "6"},
    {"ask in(hangs, v0) 5 unlisted ^unlisted", "within or the end of the line", "unlisted"},
    {"ask in(hangs, v0) 5 within 9 ^within 9", "unlisted or the end of the line", "within"},
    {"ask in(hangs, v0) 5 within 9 ^9", "unlisted or the end of the line", "9"},
    {"ask in(hangs, v0) 5 within 9 unlisted ^9", "the end of the line", "9"},
    {"ask in(hangs, v0) 5 unlisted within 9 ^within 9", "the end of the line", "within"},
    {"ask in(hangs, v0) 5 within^", no_looks, END},
    {"ask in(hangs, v0) 5 within ^x", no_looks, "x"},
    {"ask in(hangs, v0) 5 within ^-1", no_looks, "-"},
    {"ask in(hangs, v0) 5 within ^9x", no_looks, "9x"},
    {"ask in(hangs, v0) 5 within ^unlisted", no_looks, "unlisted"},
    {"ask in(hangs, v0) 5 within ^4294967296", no_looks, "4294967296"},
    {"ask in(hangs, v0) 5 within ^18446744073709551616", no_looks, "18446744073709551616"},
    {"ask in(hangs, v0) 5 within ^999999999999999999999999999999", no_looks, "999999999999999999999999.."},
    {"question^", no_name, END},
    {"question ^: in(hangs, v0)", no_name, ":"},
    {"question ^5: in(hangs, v0)", no_name, "5"},
    {"question q^", "\":\"", END},
    {"question q ^in(hangs, v0)", "\":\"", "in"},
    {"question q:^", no_kind, END},
    {"question q: ^hire", no_kind, "hire"},
    {"question q: in(hangs, v0)^)", "the end of the line", ")"},
    {"question q: in(hangs, v0) ^5", "the end of the line", "5"},
    {"question ^m4: in(hangs, v0)", "a name for the question that is no mark or variable", "m4"},
    {"question ^v0: in(hangs, v0)", "a name for the question that is no mark or variable", "v0"},
    {"question ^in: in(hangs, v0)", "a name that no question starts with", "in"},
    {"question ^every: in(hangs, v0)", "a name that no question starts with", "every"},
    {"question ^abcdefghijklmnopq: in(hangs, v0)", "a name for the question of at most 16 letters, digits and _",
     "abcdefghijklmnopq"},
};

static void check_rest(void)
{
    START("sheet hangs lamp", "sheet pairs a b");
    misses_each(rests, COUNT_OF(rests));
}

/* One bracket or comma less, or one more, and a question cannot be read. */
static void check_brackets(void)
{
    static const char question[] =
        "ask and(or(not(in(hangs, v0)), equal(v0, 1)), some(x, every(y, not(in(pairs, x, y))))) 5";

    START("sheet hangs lamp", "sheet pairs a b");
    says(question, "true, 2 looks: it stays so however the marks are filled in");
    for (size_t i = 0; i < sizeof question - 1; i++) {
        char line[2 * sizeof question];
        if (!strchr("(),", question[i]))
            continue;
        snprintf(line, sizeof line, "%.*s%s", (int)i, question, question + i + 1);
        cannot_read(line);
        snprintf(line, sizeof line, "%.*s%c%s", (int)i, question, question[i], question + i);
        cannot_read(line);
    }
}

/* Parts for which a question is refused, whatever its row is. The desk names the first fault. */
static const struct {
    const char *part;
    uint32_t number;
} parts[] = {
    {"in(hangs, ^m4)", 22},
    {"in(hangs, ^m0)", 22},
    {"in(hangs, ^m201)", 22},
    {"in(hangs, ^m999999999999999999999999999999)", 22},
    {"in(hangs, ^1000000)", 22},
    {"in(pairs, v0, ^1000001)", 22},
    {"in(pairs, ^2000000, v0)", 22},
    {"in(pairs, v0, ^999999999999999999999999999999)", 22},
    {"equal(^v16, 1)", 22},
    {"equal(1, ^v4294967296)", 22},
    {"equal(1, ^v999999999999999999999999999999)", 22},
    {"some(v15, equal(v15, ^v16))", 22},
    {"equal(1, ^v9)", 24},
    {"equal(^v6, v0)", 24},
    {"in(pairs, 5, ^v15)", 24},
    {"some(v15, in(pairs, v15, ^v14))", 24},
    {"or(some(v15, in(hangs, v15)), in(hangs, ^v15))", 24},
    {"some(^v16, in(hangs, v0))", 24},
    {"every(^v999999999999999999999999999999, in(hangs, v0))", 24},
    {"in(^2, v0)", 25},
    {"in(^2)", 25},
    {"in(^8, 1, 2, 3, 4, 5, 6)", 25},
    {"in(^4294967296, v0)", 25},
    {"in(^999999999999999999999999999999, v0)", 25},
    {"or(equal(1, ^m1), equal(v9, 1))", 22},
    {"or(equal(^v9, m1), in(9))", 24},
    {"in(^9, m4, v9)", 25},
    {"equal(^v9, m4)", 24},
    {"equal(^m4, v9)", 22},
    {"some(^v16, equal(m4, v9))", 24},
    {"and(in(^7), some(v16, equal(m4, v9)))", 25},
    /* values of some and every on both sides of the fault */
    {"some(v15, or(equal(v15, 7), or(equal(^v14, 8), equal(9, v15))))", 24},
    {"every(v15, and(in(pairs, v15, 7), and(in(pairs, 8, ^m4), equal(9, v15))))", 22},
};

/* A part in the middle of a long question. */
static void put_long(char *line, size_t room, const char *start, const char *part, const char *end)
{
    char before[512], after[512];

    repeat(before, "or(in(pairs, v0, 5), ", 15);
    char *at = repeat(after, "and(not(equal(1, 0)), ", 15);
    at = repeat(at, "in(hangs, 5)", 1);
    repeat(at, ")", 15 + 1 + 15);
    snprintf(line, room, "%s%sand(%s, %s%s", start, before, part, after, end);
}

static void check_parts(void)
{
    START("sheet hangs lamp", "sheet pairs a b", "hangs 5");
    for (size_t i = 0; i < COUNT_OF(parts); i++) {
        char line[LINE_ROOM];
        snprintf(line, sizeof line, "ask %s 1 2 3 4 5 6", parts[i].part);
        refuses(line, parts[i].number);
        snprintf(line, sizeof line, "question q: %s", parts[i].part);
        refuses(line, parts[i].number);
        put_long(line, sizeof line, "ask ", parts[i].part, " 5 within 0");
        refuses(line, parts[i].number);
        put_long(line, sizeof line, "question q: ", parts[i].part, "");
        refuses(line, parts[i].number);
    }
}

/*
 * A question whose row is too short. If it is asked by its name, the desk says which word is at fault.
 * The other numbers of a question's words are refused when it is given its name; a sheet may be gone later (cards.c).
 */
static void check_short_rows(void)
{
    char line[LINE_ROOM];

    START("sheet hangs lamp", "sheet pairs a b");
    refuses("ask in(pairs, v0, ^v1) 5", 24);
    refuses("ask in(pairs, ^v0, v1)", 24);
    put_long(line, sizeof line, "question q: ", "equal(v3, v5)", "");
    says(line, "q is a question now");
    refuses_with("ask ^q", 24, "v0 in q: ", "");
    refuses_with("ask ^q 1", 24, "v3 in q: ", "");
    refuses_with("ask  ^q 1 2 3 within 0", 24, "v3 in q: ", "");
    refuses_with("ask ^q 1 2 3 4 unlisted", 24, "v5 in q: ", "");
    refuses_with("ask ^q 1 2 3 4 5", 24, "v5 in q: ", "");
    type("question p: equal(v0, v0000000000000000000000005)");
    refuses_with("ask ^p 1", 24, "v00000000000000000000000.. in p: ", "");
    says("ask q 1 2 3 4 5 6", "false, 16 looks: it stays so however the marks are filled in");
}

/* A row asked of more than six cells, or with what is no cell, comes before the faults of the question's words. */
static void check_rows_asked(void)
{
    START("sheet hangs lamp", "sheet pairs a b", "question q: in(hangs, v5)");
    says("ask in(hangs, v5) 1 2 3 4 5 6", "false, 1 look: it stays so however the marks are filled in");
    says("ask q 0 999999 m1 m200 00 m01", "false, 1 look: it stays so however the marks are filled in");
    refuses("ask in(hangs, v5) 1 2 3 4 5 6 ^7", 26);
    refuses("ask q 1 2 3 4 5 6 ^7 8", 26);
    refuses("ask q 1 2 3 4 5 6 ^7 8 9 10 11 12 13 14 15 within 0 unlisted", 26);
    refuses("ask in(hangs, v5) 1 2 3 4 5 ^1000000", 26);
    refuses("ask in(hangs, v5) 1 ^m0 3 4 m201 6 7", 26);
    refuses("ask in(hangs, v0) ^m201", 26);
    refuses("ask in(hangs, v0) ^999999999999999999999999999999", 26);
    refuses("ask in(hangs, v0) ^m999999999999999999999999999999", 26);
    refuses("ask in(hangs, m4) ^1000000", 26);
    refuses("ask in(9, v9) 1 2 3 4 5 6 ^7", 26);
}

void check_reading(void)
{
    check_misread();
    check_rest();
    check_brackets();
    check_parts();
    check_short_rows();
    check_rows_asked();
}
