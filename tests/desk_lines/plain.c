/* Which questions are plain, and what the desk says after unknown. */
#include "desk/question.h"
#include "parts.h"
#include "talk.h"

#include <string.h>

#define SOME_WAY  ": some way to ink the marks makes it false"
#define NOT_TOLD  ": the rules could not tell; as far as they go, it may hold for every way to ink the marks"
#define HOWEVER   ": it stays so however the marks are filled in"
#define UNKNOWN_2 "unknown, 2 looks"

struct part {
    const char *text;
    bool plain;
};

/* In a plot with the row (m1) alone each of these is unknown of the row (m2), and so is what is made of them. */
static const struct part parts[] = {
    {"in(hangs, v0)", true},
    {"equal(v0, 5)", true},
    {"not(equal(v0, 5))", false},
    {"and(equal(v0, 5), in(hangs, v0))", true},
    {"or(in(hangs, v0), equal(v0, 5))", true},
    {"some(x, equal(x, v0))", true},
    {"every(x, equal(x, v0))", false},
    /* the kinds decide, not the meaning */
    {"not(not(in(hangs, v0)))", false},
    {"every(x, in(hangs, v0))", false},
    /* 3 and 7 are the kinds of not and every: as values, variables and children they are no kinds, nor are names */
    {"equal(3, v0)", true},
    {"equal(v0, 7)", true},
    {"some(v3, equal(v3, v0))", true},
    {"some(v7, equal(v0, v7))", true},
    {"some(not, equal(not, v0))", true},
    {"some(every, equal(v0, every))", true},
    {"or(and(and(in(0, v0), equal(v0, 5)), or(equal(v0, 6), equal(v0, 8))), in(hangs, v0))", true},
};

/* What a part may stand in: at the start of a question, in its midst and at its end. */
static const struct frame {
    const char *start;
    const char *end;
    bool plain;
} frames[] = {
    {"", "", true},
    {"and(", ", equal(v0, 6))", true},
    {"and(equal(v0, 6), ", ")", true},
    {"or(", ", in(hangs, v0))", true},
    {"or(in(hangs, v0), ", ")", true},
    {"some(y, ", ")", true},
    {"some(y, or(and(equal(y, v0), ", "), in(hangs, v0)))", true},
    {"not(", ")", false},
    {"every(y, ", ")", false},
    {"and(not(in(hangs, v0)), ", ")", false},
    {"or(", ", every(y, equal(y, v0)))", false},
    {"some(y, and(", ", not(equal(y, v0))))", false},
};

/* What `questions` should answer. */
static char list[2 * LINE_ROOM];

/* Asks a question, which has to be unknown with the words that belong to it; it is in the list from then on. */
static void asks_unknown(const char *question, const char *manner, bool plain)
{
    static const char unknown[] = "unknown, ";
    char line[LINE_ROOM];
    size_t listed = strlen(list);

    snprintf(line, sizeof line, "ask %s m2%s", question, manner);
    type(line);
    const char *answer = last_answer(), *words = plain ? SOME_WAY "\n" : NOT_TOLD "\n";
    size_t length = strcspn(answer, ":");
    expect(line, strncmp(answer, unknown, strlen(unknown)) == 0 && strcmp(answer + length, words) == 0);
    snprintf(list + listed, sizeof list - listed, "\nasked%s: %s m2%s: %.*s", plain ? ", plain" : "", question, manner,
             (int)length, answer);
}

/* A question by its name and in words, with a working list and without one, within an allowance or not. */
static void check_question(const char *text, bool plain)
{
    char line[LINE_ROOM];

    START("sheet hangs lamp", "hangs m1");
    snprintf(line, sizeof line, "question q: %s", text);
    says(line, "q is a question now");
    snprintf(list, sizeof list, "q%s: %s", plain ? ", plain" : "", text);
    says("questions", list);
    asks_unknown("q", "", plain);
    asks_unknown(text, "", plain);
    asks_unknown("q", " unlisted", plain);
    asks_unknown(text, " within 999 unlisted", plain);
    says("questions", list);
}

static void check_parts(void)
{
    char text[LINE_ROOM];

    for (size_t i = 0; i < COUNT_OF(frames); i++)
        for (size_t j = 0; j < COUNT_OF(parts); j++) {
            snprintf(text, sizeof text, "%s%s%s", frames[i].start, parts[j].text, frames[i].end);
            check_question(text, frames[i].plain && parts[j].plain);
        }
}

/* Questions of 100 nodes: a node that is not plain may be the first, or the last but one, before a leaf. */
static void check_hundred(void)
{
    static const struct part ends[] = {
        {"some(x,equal(x,v0))", true}, {"not(equal(v0,5))", false}, {"every(x,equal(v0,5))", false}};
    static const struct part starts[] = {{"some(y,", true}, {"not(", false}, {"every(y,", false}};
    char text[LINE_ROOM];

    for (size_t i = 0; i < COUNT_OF(ends); i++) {
        char *at = repeat(text, "and(equal(v0,5),", 49);
        at = repeat(at, ends[i].text, 1);
        repeat(at, ")", 49);
        check_question(text, ends[i].plain);
        expect("100 nodes were asked", desk.asked[0].word_count == PLOTASK_QUERY_WORDS);
    }
    for (size_t i = 0; i < COUNT_OF(starts); i++) {
        char *at = repeat(text, starts[i].text, 1);
        at = repeat(at, "or(", 49);
        at = repeat(at, "in(hangs,v0)", 1);
        at = repeat(at, ",equal(v0,5))", 49);
        repeat(at, ")", 1);
        check_question(text, starts[i].plain);
        expect("100 nodes were asked", desk.asked[0].word_count == PLOTASK_QUERY_WORDS);
    }
}

/* Of the words themselves, up to their count, the first of each node decides, at every place. */
static void check_words(void)
{
    static const uint32_t plain[] = {PLOTASK_STANDS, PLOTASK_EQUAL, PLOTASK_AND, PLOTASK_OR, PLOTASK_SOME};
    static const uint32_t others[] = {PLOTASK_NOT, PLOTASK_EVERY};
    uint32_t words[PLOTASK_QUERY_WORDS];

    for (size_t i = 0; i < PLOTASK_QUERY_WORDS; i++)
        words[i] = i % PLOTASK_NODE_WORDS == 0 ? plain[i / PLOTASK_NODE_WORDS % COUNT_OF(plain)] : others[i % 2];
    for (size_t i = 0; i < PLOTASK_QUERY_WORDS; i += PLOTASK_NODE_WORDS) {
        uint32_t kind = words[i];
        expect("plain up to a node", is_plain(words, i + PLOTASK_NODE_WORDS));
        for (size_t j = 0; j < COUNT_OF(others); j++) {
            words[i] = others[j];
            expect("plain before a node that is not", i == 0 || is_plain(words, i));
            expect("not plain, for its last node", !is_plain(words, i + PLOTASK_NODE_WORDS));
            expect("not plain, for one of 100 nodes", !is_plain(words, PLOTASK_QUERY_WORDS));
        }
        words[i] = kind;
    }
}

/* After true and false the same is said of every question. */
static void check_settled(void)
{
    START("sheet hangs lamp", "hangs m1");
    says("ask in(hangs, v0) m1", "true, 2 looks" HOWEVER);
    says("ask not(in(hangs, v0)) m1", "false, 2 looks" HOWEVER);
    says("ask equal(v0, 5) 6", "false, 1 look" HOWEVER);
    says("ask every(x, in(hangs, x))", "true, 2 looks" HOWEVER);
    says("questions", "asked, plain: in(hangs, v0) m1: true, 2 looks\nasked: not(in(hangs, v0)) m1: false, 2 looks\n"
                      "asked, plain: equal(v0, 5) 6: false, 1 look\nasked: every(x, in(hangs, x)): true, 2 looks");
}

/*
 * Every way to ink m1 makes the first question false and the second one true, which the rules do not see. The third one
 * asks the same as the second, and is plain.
 */
static void check_certain(void)
{
    START("sheet cues level", "cues m1");
    says("ask and(equal(v0, 1), equal(v0, 2)) m1", "unknown, 2 looks" SOME_WAY);
    says("ask some(x, and(in(cues, x), or(equal(x, 0), not(equal(x, 0)))))", "unknown, 7 looks" NOT_TOLD);
    says("ask some(x, and(in(cues, x), equal(x, x)))", "true, 3 looks" HOWEVER);
}

/* If a verdict changes to unknown, only the new answer is said. The list says as before whether the question is plain. */
static void check_changed(void)
{
    START("sheet hangs lamp", "hangs m1", "question q: in(hangs, v0)", "ask q 5", "ask not(in(hangs, v0)) 5");
    says("fill m1 5", "m1 is now 5, in 1 cell\nbecame settled: q 5: true, 2 looks; before: " UNKNOWN_2 "\n"
                      "became settled: not(in(hangs, v0)) 5: false, 2 looks; before: " UNKNOWN_2 "\n"
                      "no verdict was unsettled");
    says("questions", "q, plain: in(hangs, v0)\nasked, plain: q 5: true, 2 looks\n"
                      "asked: not(in(hangs, v0)) 5: false, 2 looks");
    says("take back", "m1 stands again, in 1 cell\nchanged: q 5: " UNKNOWN_2 "; before: true, 2 looks\n"
                      "changed: not(in(hangs, v0)) 5: " UNKNOWN_2 "; before: false, 2 looks");
    says("questions", "q, plain: in(hangs, v0)\nasked, plain: q 5: " UNKNOWN_2 "\n"
                      "asked: not(in(hangs, v0)) 5: " UNKNOWN_2);
}

/* A name that is given anew: plain or not is the question that has it now. */
static void check_given_anew(void)
{
    static const char anew[] =
        "q: not(in(hangs, v0))\np, plain: in(hangs, v0)\nasked: q 5: " UNKNOWN_2 "\nasked, plain: p 5: " UNKNOWN_2;

    START("sheet hangs lamp", "hangs m1", "question q: in(hangs, v0)", "question p: not(in(hangs, v0))");
    says("ask q 5", UNKNOWN_2 SOME_WAY);
    says("ask p 5", UNKNOWN_2 NOT_TOLD);
    says("questions",
         "q, plain: in(hangs, v0)\np: not(in(hangs, v0))\nasked, plain: q 5: " UNKNOWN_2 "\nasked: p 5: " UNKNOWN_2);
    says("question q: not(in(hangs, v0))", "q is another question now; the old one is not asked again");
    says("question p: in(hangs, v0)", "p is another question now; the old one is not asked again");
    says("questions", "q: not(in(hangs, v0))\np, plain: in(hangs, v0)");
    says("ask q 5", UNKNOWN_2 NOT_TOLD);
    says("ask p 5", UNKNOWN_2 SOME_WAY);
    says("questions", anew);
    says("question p: in(hangs, v0)", "p is that question already");
    says("question q: not(in(hangs, v0))", "q is that question already");
    refuses("question p: not(in(hangs, ^m1))", 22);
    misses("question q: in(hangs, v0) ^now", "the end of the line", "now");
    says("questions", anew);
}

/* A name that is forgotten, and given anew: the questions after it move up as they are. */
static void check_forgotten(void)
{
    START("sheet hangs lamp", "hangs m1", "question a: in(hangs, v0)", "question b: not(in(hangs, v0))");
    type("question c: some(x, equal(x, v0))");
    type("question d: every(x, equal(x, v0))");
    says("questions", "a, plain: in(hangs, v0)\nb: not(in(hangs, v0))\nc, plain: some(x, equal(x, v0))\n"
                      "d: every(x, equal(x, v0))");
    says("forget a", "a is no question now");
    says("questions", "b: not(in(hangs, v0))\nc, plain: some(x, equal(x, v0))\nd: every(x, equal(x, v0))");
    says("question a: not(equal(v0, 5))", "a is a question now");
    says("forget d", "d is no question now");
    says("question d: equal(v0, 5)", "d is a question now");
    says("questions", "b: not(in(hangs, v0))\nc, plain: some(x, equal(x, v0))\na: not(equal(v0, 5))\n"
                      "d, plain: equal(v0, 5)");
    says("ask a m1", "unknown, 1 look" NOT_TOLD);
    says("ask d m1", "unknown, 1 look" SOME_WAY);
    says("forget", "2 questions not asked again");
    says("ask d m1", "unknown, 1 look" SOME_WAY);
    says("new", "a new plot, without sheets");
    type("sheet hangs lamp");
    type("hangs m1");
    says("question b: in(hangs, v0)", "b is a question now");
    says("question c: not(in(hangs, v0))", "c is a question now");
    says("questions", "b, plain: in(hangs, v0)\nc: not(in(hangs, v0))");
}

/* In a plot without its sheets a question cannot be read. It is still listed, as plain or not. */
static void check_sheets_gone(void)
{
    START("sheet pairs a b", "save plain.card", "new", "sheet hangs lamp", "question q: in(hangs, v0)");
    type("question p: not(in(hangs, v0))");
    says("load plain.card", "a card of 4 bytes read from plain.card: 1 sheet, 0 rows\n"
                            "a card has no names: the sheets are s0, s1 and so on, their columns c0, c1");
    not_done("ask ^q 5", "in q: expected the name of a sheet, or its number, found \"hangs\"");
    not_done("ask ^p 5", "in p: expected the name of a sheet, or its number, found \"hangs\"");
    says("questions", "q, plain: in(hangs, v0)\np: not(in(hangs, v0))");
    says("question q: every(x, equal(x, v0))", "q is another question now");
    says("questions", "q: every(x, equal(x, v0))\np: not(in(hangs, v0))");
    says("question p: in(s0, v0, 5)", "p is another question now");
    says("questions", "q: every(x, equal(x, v0))\np, plain: in(s0, v0, 5)");
}

void check_plain(void)
{
    check_parts();
    check_hundred();
    check_words();
    check_settled();
    check_certain();
    check_changed();
    check_given_anew();
    check_forgotten();
    check_sheets_gone();
}
