#include "parts.h"
#include "talk.h"

#include <string.h>

static const char truly[] = ": it stays so however the marks are filled in";

static void gives(const char *question, const char *verdict)
{
    char line[LINE_ROOM + 4], answer[120];

    snprintf(line, sizeof line, "ask %s", question);
    snprintf(answer, sizeof answer, "%s%s", verdict, truly);
    says(line, answer);
}

/*
 * Names that stand for two variables, in plots where the verdict or the looks tell. Lamps 1 and 2 hang, lamps 2 and 3
 * are in the store; the plot's values are 1, 2 and 3.
 */
static const struct {
    const char *question;
    const char *verdict;
} scopes[] = {
    /* a name is no variable that the question writes, be that before it, after it or beside it */
    {"some(x, some(v15, not(equal(x, v15))))", "true, 2 looks"},
    {"some(v15, some(x, not(equal(x, v15))))", "true, 2 looks"},
    {"every(x, some(v15, and(equal(v15, 3), not(equal(x, v15)))))", "false, 12 looks"},
    {"some(x, some(v14, some(v15, and(equal(x, 1), and(equal(v14, 2), equal(v15, 3))))))", "true, 15 looks"},
    {"some(x, some(y, some(v15, and(equal(x, 1), and(equal(y, 2), equal(v15, 3))))))", "true, 15 looks"},
    {"some(x, and(equal(x, 2), some(v15, and(equal(v15, 1), equal(x, 2)))))", "true, 4 looks"},
    {"some(x, and(equal(v0, 7), equal(x, 2))) 7", "true, 4 looks"},
    {"some(x, and(equal(v0, 7), and(equal(v5, 12), equal(x, 2)))) 7 8 9 10 11 12", "true, 6 looks"},
    /* nested names are two variables, and names beside one another may be one */
    {"some(x, some(y, not(equal(x, y))))", "true, 2 looks"},
    {"and(some(x, equal(x, 1)), some(y, equal(y, 2)))", "true, 3 looks"},
    {"some(a, and(some(b, equal(b, 3)), some(c, and(equal(c, 2), equal(a, 1)))))", "true, 6 looks"},
    /* a name hides the same name further out, as far as its own closing bracket */
    {"some(x, and(equal(x, 1), some(x, equal(x, 3))))", "true, 4 looks"},
    {"some(x, and(some(x, equal(x, 3)), equal(x, 1)))", "true, 4 looks"},
    {"some(x, some(y, and(equal(x, 1), some(x, and(equal(x, 3), equal(y, 2))))))", "true, 10 looks"},
    {"some(x, some(y, some(x, some(y, and(equal(x, 2), equal(y, 3))))))", "true, 9 looks"},
    /* so does a variable's number */
    {"some(v3, and(equal(v3, 1), some(v3, equal(v3, 3))))", "true, 4 looks"},
    {"some(v0, equal(v0, 3)) 7", "true, 3 looks"},
    {"and(some(v0, equal(v0, 3)), equal(v0, 7)) 7", "true, 4 looks"},
    /* names that start alike, or as words of a question */
    {"some(a, some(ab, some(abc, and(equal(a, 1), and(equal(ab, 2), equal(abc, 3))))))", "true, 15 looks"},
    {"some(abc, some(ab, some(a, and(equal(a, 1), and(equal(ab, 2), equal(abc, 3))))))", "true, 33 looks"},
    {"some(in, some(equal, and(in(hangs, in), equal(equal, 2))))", "true, 6 looks"},
    {"some(hangs, in(hangs, hangs))", "true, 2 looks"},
    {"some(v, some(m, and(equal(v, 1), equal(m, 2))))", "true, 4 looks"},
    {"some(V0, and(equal(V0, 2), equal(v0, 7))) 7", "true, 3 looks"},
    {"some(within, equal(within, 2)) within 2", "true, 2 looks"},
    {"some(abcdefghijklmnop, equal(abcdefghijklmnop, 3))", "true, 3 looks"},
    {"some(a_1, some(a_2, and(equal(a_1, 1), equal(a_2, 2))))", "true, 4 looks"},
};

static void check_scopes(void)
{
    START("sheet hangs lamp", "sheet store lamp", "hangs 1", "hangs 2", "store 2", "store 3");
    for (size_t i = 0; i < COUNT_OF(scopes); i++)
        gives(scopes[i].question, scopes[i].verdict);
    misses("ask or(some(x, in(hangs, x)), in(hangs, ^x))",
           "a value, a variable such as v0, or a name after some or every", "x");
    misses("ask some(x, and(some(y, in(hangs, y)), in(hangs, ^y)))",
           "a value, a variable such as v0, or a name after some or every", "y");
    misses("ask some(abc, in(hangs, ^ab))", "a value, a variable such as v0, or a name after some or every", "ab");
    misses("ask some(ab, in(hangs, ^abc))", "a value, a variable such as v0, or a name after some or every", "abc");
    misses("ask some(x, in(hangs, ^X))", "a value, a variable such as v0, or a name after some or every", "X");
}

/* Writes nested names, n0 and so on, around `about`, with a ^ before name `marked`. */
static void put_names(char *line, const char *start, size_t names, size_t marked, const char *about, const char *end)
{
    char *at = repeat(line, start, 1);

    for (size_t i = 0; i < names; i++)
        at += sprintf(at, "some(%sn%zu,", i == marked ? "^" : "", i);
    at = repeat(at, about, 1);
    at = repeat(at, ")", names);
    repeat(at, end, 1);
}

enum { NO_NAME = 99 };

/* Nested names and written variables share 16 variables. */
static void check_sixteen(void)
{
    static const struct {
        size_t names; /* as many as there is room for */
        const char *about;
        const char *row;
        const char *verdict;
    } nests[] = {
        {16, "and(equal(n0,1),equal(n15,1))", "", "true, 2 looks"},
        {16, "and(equal(n0,1),equal(n15,2))", "", "true, 4 looks"},
        {16, "some(n3,and(equal(n3,2),equal(n4,1)))", "", "true, 3 looks"},
        {15, "and(equal(n14,2),equal(v0,7))", " 7", "true, 3 looks"},
        {15, "some(v9,and(equal(n14,1),equal(v9,2)))", "", "true, 4 looks"},
        {13, "and(equal(v0,7),and(equal(v2,9),equal(v5,12)))", " 7 8 9 10 11 12", "true, 3 looks"},
        {10, "and(in(hangs,n9),in(six,v0,v1,v2,v3,v4,v5))", " 1 2 1 2 1 2", "true, 4 looks"},
    };
    char line[LINE_ROOM];

    START("sheet hangs lamp", "sheet six a b c d e f", "hangs 1", "hangs 2", "six 1 2 1 2 1 2");
    for (size_t i = 0; i < COUNT_OF(nests); i++) {
        put_names(line, "", nests[i].names, NO_NAME, nests[i].about, nests[i].row);
        gives(line, nests[i].verdict);
        put_names(line, "ask ", nests[i].names + 1, nests[i].names, nests[i].about, nests[i].row);
        refuses(line, 24);
        put_names(line, "question q: ", nests[i].names + 1, nests[i].names, nests[i].about, "");
        refuses(line, 24);
        put_names(line, "ask ", nests[i].names + 20, nests[i].names, nests[i].about, nests[i].row);
        refuses(line, 24);
    }
}

/* Beside one another there may be more names than variables. */
static void check_twenty(void)
{
    char line[LINE_ROOM], *at = line;

    START("sheet hangs lamp", "hangs 1", "hangs 2");
    for (size_t i = 0; i < 20; i++)
        at += sprintf(at, "and(some(n%zu,equal(n%zu,2)),", i, i);
    at = repeat(at, "some(last,equal(last,2))", 1);
    repeat(at, ")", 20);
    gives(line, "true, 42 looks");
}

/* All sixteen variables are written, so there is none for a name. */
static void check_none_left(void)
{
    char line[LINE_ROOM], *at = repeat(line, "ask ", 1);

    START("sheet hangs lamp", "hangs 1");
    for (size_t i = 0; i < PLOTASK_VARIABLES; i++)
        at += sprintf(at, "some(v%zu,and(equal(v%zu,1),", i, i);
    char *leaf = at;
    at = repeat(at, "equal(v15,v0)", 1);
    repeat(at, "))", PLOTASK_VARIABLES);
    says(line, "true, 17 looks: it stays so however the marks are filled in");
    at = repeat(leaf, "some(^x,equal(x,v0))", 1);
    repeat(at, "))", PLOTASK_VARIABLES);
    refuses(line, 24);
}

void check_names(void)
{
    check_scopes();
    check_sixteen();
    check_twenty();
    check_none_left();
}
