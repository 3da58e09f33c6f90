#include "parts.h"
#include "talk.h"

#include <string.h>

/* Questions with names: 32 of them, each by its own name, and one more. */
static void check_named(void)
{
    char line[LINE_ROOM], answer[80];

    START("sheet hangs lamp", "hangs 1");
    for (size_t i = 0; i < QUESTIONS; i++) {
        snprintf(line, sizeof line, "question q%zu: equal(v0, %zu)", i, i);
        snprintf(answer, sizeof answer, "q%zu is a question now", i);
        says(line, answer);
    }
    not_done("question ^q32: equal(v0, 32)", "the desk has room for 32 questions with names; forget one first");
    not_done("question  ^q: equal(v0, 32)", "the desk has room for 32 questions with names; forget one first");
    refuses("question q: equal(v0, ^m1)", 22);
    misses("question q: equal(v0, 32) ^x", "the end of the line", "x");
    says("question q31: equal(v0, 77)", "q31 is another question now");
    says("question q3: equal(v0, 33)", "q3 is another question now");
    for (size_t i = 0; i < QUESTIONS; i++) {
        snprintf(line, sizeof line, "ask q%zu %zu", i, i == 31 ? (size_t)77 : i == 3 ? (size_t)33 : i);
        says(line, "true, 1 look: it stays so however the marks are filled in");
    }
    misses("ask ^q32 1", "a question or its name", "q32");
    misses("ask ^q 1", "a question or its name", "q");
    misses("ask ^Q1 1", "a question or its name", "Q1");
}

/* Names of questions: as long as they may be, and such as mean something elsewhere. */
static void check_question_names(void)
{
    static const char *const names[] = {
        "abcdefghijklmnop", "a",    "ab",  "hangs", "ask", "within", "unlisted", "m", "v", "m4x", "back",
        "question",         "Some", "inn", "i",     "x_1"};
    char line[80], answer[80];

    START("sheet hangs lamp", "hangs 1");
    for (size_t i = 0; i < COUNT_OF(names); i++) {
        snprintf(line, sizeof line, "question %s:equal(v0,%zu)", names[i], i);
        snprintf(answer, sizeof answer, "%s is a question now", names[i]);
        says(line, answer);
    }
    for (size_t i = 0; i < COUNT_OF(names); i++) {
        snprintf(line, sizeof line, "ask %s %zu within 1 unlisted", names[i], i);
        says(line, "true, 1 look: it stays so however the marks are filled in");
    }
    misses("ask a ^(v0)", "a cell, within, unlisted or the end of the line", "(");
    misses("question a^(v0)", "\":\"", "(");
}

/*
 * Allowances at their limits. In a plot of ten values, six nested "every" take a million looks, which is the allowance
 * of a question that is asked without one.
 */
static void check_allowances(void)
{
    static const char million[] = "every(a,every(b,every(c,every(d,every(e,every(f,equal(f,f)))))))";
    char line[LINE_ROOM];

    START("sheet six a b c d e f", "six 0 1 2 3 4 5", "six 6 7 8 9 0 0");
    says("ask equal(1, 1) within 0001", "true, 1 look: it stays so however the marks are filled in");
    says("ask equal(1, 1) within 4294967295", "true, 1 look: it stays so however the marks are filled in");
    expect("the largest allowance", desk.asked[1].allowance == UINT32_MAX);
    refuses_with("ask equal(1, 1) within ^0", 46, "", ", 0");
    refuses_with("ask equal(1, 1) 5 6 unlisted within  ^000 # none", 46, "", ", 0");
    refuses_with("ask in(six, 0, 1, 2, 3, 4, 4) within ^2 unlisted", 46, "", ", 2");
    says("ask in(six, 0, 1, 2, 3, 4, 4) within 3 unlisted",
         "false, 3 looks: it stays so however the marks are filled in");
    snprintf(line, sizeof line, "ask %s", million);
    says(line, "true, 1000000 looks: it stays so however the marks are filled in");
    snprintf(line, sizeof line, "ask  ^and(equal(1,1),%s) unlisted", million);
    refuses_with(line, 46, "", ", 1000000");
    snprintf(line, sizeof line, "ask and(equal(1,1),%s) within ^1000000", million);
    refuses_with(line, 46, "", ", 1000000");
    snprintf(line, sizeof line, "question q: and(equal(1,1),%s)", million);
    says(line, "q is a question now");
    refuses_with("ask  ^q", 46, "", ", 1000000");
    refuses_with("ask q within ^999999", 46, "", ", 999999");
    says("ask q within 1000001", "true, 1000001 looks: it stays so however the marks are filled in");
}

/* A question in words is the same if each byte of it is, and the row and the manner too. Then it is kept once, last. */
static void check_same(void)
{
    START("sheet hangs lamp", "hangs 1", "question q: in(hangs, v0)");
    type("ask in(hangs, v0) 1");
    type("ask in(hangs,v0) 1");
    type("ask in(hangs, v0) 2");
    type("ask q 1");
    type("ask  in(hangs, v0)   01 # again");
    type("ask q 1 unlisted within 9");
    type("ask q 1 within 9");
    type("ask q 1 within 9 unlisted");
    type("ask q 1 within 1000000");
    says("questions", "q, plain: in(hangs, v0)\nasked, plain: in(hangs,v0) 1: true, 2 looks\n"
                      "asked, plain: in(hangs, v0) 2: false, 2 looks\nasked, plain: in(hangs, v0) 1: true, 2 looks\n"
                      "asked, plain: q 1 within 9: true, 2 looks\nasked, plain: q 1 within 9 unlisted: true, 2 looks\n"
                      "asked, plain: q 1: true, 2 looks");
    type("ask q m1");
    type("ask q m1 1");
    type("ask q 1 m1");
    type("ask q 1 2");
    expect("rows that differ in a cell or in their length", desk.asked_count == 10);
}

#define FALSELY "false, 1 look: it stays so however the marks are filled in"

/* 32 questions are kept. The next one takes the place of the oldest, which is named, with its row as it is by then. */
static void check_kept(void)
{
    char line[80];

    START("sheet hangs lamp", "hangs m1", "ask in(hangs, v0) m1", "ask equal(v0, 50) m1", "fill m1 5");
    for (size_t i = 2; i < ASKED; i++) {
        snprintf(line, sizeof line, "ask equal(v0, %zu) %zu", i, i);
        says(line, "true, 1 look: it stays so however the marks are filled in");
    }
    expect("32 questions are kept", desk.asked_count == ASKED);
    refuses("ask equal(v0, ^m1) 5", 22);
    refuses_with("ask equal(v0, 9) 1 within ^0", 46, "", ", 0");
    says("ask equal(v0, 2) 2", "true, 1 look: it stays so however the marks are filled in");
    expect("what is asked again is the latest", strcmp(desk.asked[31].label, "equal(v0, 2)") == 0);
    says("ask equal(v0, 9) 1", FALSELY "\nno longer asked again: in(hangs, v0) 5 (asked of m1)");
    says("ask equal(v0, 10) 1", FALSELY "\nno longer asked again: equal(v0, 50) 5 (asked of m1)");
    says("ask equal(v0, 11) 1", FALSELY "\nno longer asked again: equal(v0, 3) 3");
    says("ask equal(v0, 11) 1 within 7 unlisted", FALSELY "\nno longer asked again: equal(v0, 4) 4");
    expect("32 questions are kept still", desk.asked_count == ASKED);
    expect("the sixth is the oldest now",
           strcmp(desk.asked[0].label, "equal(v0, 5)") == 0 && strcmp(desk.asked[31].label, "equal(v0, 11)") == 0);
}

/* A name that is given to another question: the old one is no longer asked again, and all others are. */
static void check_renamed(void)
{
    START("sheet hangs lamp", "hangs m1", "question q: in(hangs, v0)", "question qq: in(hangs, v0)");
    type("ask qq 5");
    type("ask q 5");
    type("ask equal(v0, 5) m1");
    type("ask q 6");
    says("fill m1 7", "m1 is now 7, in 1 cell\nbecame settled: qq 5: false, 2 looks; before: unknown, 2 looks\n"
                      "became settled: q 5: false, 2 looks; before: unknown, 2 looks\n"
                      "became settled: equal(v0, 5) 7 (asked of m1): false, 1 look; before: unknown, 1 look\n"
                      "became settled: q 6: false, 2 looks; before: unknown, 2 looks\nno verdict was unsettled");
    type("take back");
    refuses("question q: not(in(hangs, ^m1))", 22);
    expect("a refused name drops nothing", desk.asked_count == 4);
    says("question q:in(hangs, v0)", "q is that question already");
    expect("the same text drops nothing", desk.asked_count == 4);
    says("question q:  not(in(hangs, v0)) \t # not at all",
         "q is another question now; the old one is not asked again");
    says("question q: not(in(hangs,v0))", "q is another question now");
    says("question q: not(in(hangs, v0))", "q is another question now");
    says("questions", "q: not(in(hangs, v0))\nqq, plain: in(hangs, v0)\nasked, plain: qq 5: unknown, 2 looks\n"
                      "asked, plain: equal(v0, 5) m1: unknown, 1 look");
    type("ask q 7");
    says("fill m1 7", "m1 is now 7, in 1 cell\nbecame settled: qq 5: false, 2 looks; before: unknown, 2 looks\n"
                      "became settled: equal(v0, 5) 7 (asked of m1): false, 1 look; before: unknown, 1 look\n"
                      "became settled: q 7: false, 2 looks; before: unknown, 2 looks\nno verdict was unsettled");
}

/* What was asked is forgotten, or a name with what was asked by it. */
static void check_forgotten(void)
{
    START("sheet hangs lamp", "hangs m1", "question q: in(hangs, v0)", "question p: equal(v0, 5)");
    type("question r: equal(v0, 6)");
    type("ask p 5");
    type("ask q 5");
    type("ask in(hangs, v0) 6");
    misses("forget ^s", "the name of a question", "s");
    misses("forget q ^p", "the end of the line", "p");
    misses("forget ^in(hangs, v0)", "the name of a question", "in");
    says("forget p", "p is no question now");
    says("questions", "q, plain: in(hangs, v0)\nr, plain: equal(v0, 6)\nasked, plain: q 5: unknown, 2 looks\n"
                      "asked, plain: in(hangs, v0) 6: unknown, 2 looks");
    says("forget", "2 questions not asked again");
    says("fill m1 5", "m1 is now 5, in 1 cell");
    says("forget r", "r is no question now");
    says("forget q", "q is no question now");
    says("forget", "0 questions not asked again");
    says("questions", "no questions yet");
    says("question p: equal(v0, 7)", "p is a question now");
    misses("^p 7", "\"ask\" before the name of a question", "p");
}

/* A question may take a whole line, and is kept and shown as it was typed. */
static void check_long_question(void)
{
    static char question[LINE_ROOM], line[LINE_ROOM + 8], answer[2 * LINE_ROOM];

    START("sheet hangs lamp", "hangs m1");
    char *at = repeat(question, "equal(v0,", 1);
    at = repeat(at, " ", 4095 - strlen("ask equal(v0,5) m1"));
    repeat(at, "5)", 1);
    snprintf(line, sizeof line, "ask %s m1", question);
    says(line, "unknown, 1 look: some way to ink the marks makes it false");
    snprintf(answer, sizeof answer,
             "m1 is now 5, in 1 cell\nbecame settled: %s 5 (asked of m1): true, 1 look; before: unknown, 1 look\n"
             "no verdict was unsettled",
             question);
    says("fill m1 5", answer);
}

void check_questions(void)
{
    check_named();
    check_question_names();
    check_allowances();
    check_same();
    check_kept();
    check_renamed();
    check_forgotten();
    check_long_question();
}
