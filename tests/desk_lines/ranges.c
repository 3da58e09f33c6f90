#include "parts.h"
#include "talk.h"

#include <stdio.h>

#define STAYS ": it stays so however the marks are filled in"

/* Asks with a working list and without one. */
static void gives(const char *question, const char *answer)
{
    static const char *const ways[] = {"", " unlisted"};
    char line[LINE_ROOM + 16];

    for (size_t i = 0; i < COUNT_OF(ways); i++) {
        snprintf(line, sizeof line, "ask %s%s", question, ways[i]);
        says(line, answer);
    }
}

/* "Is there a colour that no hang uses": a colour in the question counts, one in the row asked about does not. */
static void check_unused_colour(void)
{
    START("sheet hangs colour", "hangs 202", "hangs 203");
    gives("some(x, not(in(hangs, x)))", "false, 5 looks" STAYS);
    gives("some(x, and(equal(x, 201), not(in(hangs, x))))", "true, 6 looks" STAYS);
    gives("some(x, and(equal(x, v0), not(in(hangs, x)))) 201", "false, 2 looks" STAYS);
    gives("every(x, in(hangs, x))", "true, 5 looks" STAYS);
    gives("every(x, or(in(hangs, x), equal(201, 202)))", "false, 9 looks" STAYS);
    START("sheet hangs colour", "hangs 202", "hangs 203", "ask some(x, and(equal(x, 201), not(in(hangs, x))))");
    says("hangs 201", "hangs has 3 rows\n"
                      "changed: some(x, and(equal(x, 201), not(in(hangs, x)))): false, 7 looks; before: true, 6 looks");
}

/* A plot without rows has no values. Those of the question are the only ones. */
static void check_no_rows(void)
{
    START("sheet hangs colour");
    gives("some(x, equal(x, x))", "false, 0 looks" STAYS);
    gives("some(x, equal(x, v0)) 7", "false, 0 looks" STAYS);
    gives("some(x, equal(x, 7))", "true, 1 look" STAYS);
    gives("every(x, equal(x, v0)) 7", "true, 0 looks" STAYS);
    gives("every(x, in(hangs, 7))", "false, 1 look" STAYS);
}

/* Parts of a question, and its values in the plot of the rows (m1) and (5): what the part names comes last. */
static const struct {
    const char *part;
    const char *values;
} parts[] = {
    {"equal(8, 7)", "m1 5 8 7"},
    {"equal(7, 8)", "m1 5 7 8"},
    {"in(pairs, 8, 7)", "m1 5 8 7"},
    /* each once, if the plot has it or if the question names it again */
    {"equal(7, 5)", "m1 5 7"},
    {"equal(8, 8)", "m1 5 8"},
    {"and(equal(8, 3), equal(7, 8))", "m1 5 8 3 7"},
    /* the desk numbers the nodes as they are written, from left to right */
    {"and(not(equal(3, v0)), or(in(pairs, 9, 8), equal(0, 3)))", "m1 5 3 9 8 0"},
    {"or(or(equal(4, 9), in(hangs, 3)), every(y, equal(2, y)))", "m1 5 4 9 3 2"},
    {"some(v9, some(y, in(pairs, 999999, 0)))", "m1 5 999999 0"},
    /* the numbers of sheets and variables are no values */
    {"in(1, v0, v0)", "m1 5"},
    {"some(v1, equal(v1, v0))", "m1 5"},
};

/*
 * The first question ends at the value that is the row's cell, so its looks are the place of that value. It does not
 * come to the part then, and what the part names counts all the same. The second question takes a look for each value.
 */
static void check_order(const char *part, const char *values)
{
    char question[LINE_ROOM], answer[80], value[8];
    int place = 0, length;

    START("sheet hangs lamp", "sheet pairs a b", "hangs m1", "hangs 5");
    for (const char *at = values; sscanf(at, "%7s%n", value, &length) == 1; at += length) {
        snprintf(question, sizeof question, "or(some(x, equal(x, v0)), %s) %s", part, value);
        place++;
        snprintf(answer, sizeof answer, "true, %d look%s" STAYS, place, place == 1 ? "" : "s");
        gives(question, answer);
    }
    snprintf(question, sizeof question, "or(every(x, equal(x, x)), %s) 1", part);
    snprintf(answer, sizeof answer, "true, %d looks" STAYS, place);
    gives(question, answer);
}

/* What stands before some or every, or in it, is named too. */
static void check_elsewhere(void)
{
    START("sheet hangs lamp", "hangs m1", "hangs 5");
    gives("or(not(equal(8, 8)), some(x, equal(x, v0))) 8", "true, 4 looks" STAYS);
    gives("some(x, or(equal(x, v0), equal(8, 9))) 9", "true, 7 looks" STAYS);
    gives("and(some(x, equal(x, 7)), some(y, equal(y, 8)))", "true, 7 looks" STAYS);
}

/* As many cells and values as there can be: 585 rows of six, and 50 leaves of six. The first leaf is the first row. */
static void check_longest(void)
{
    char line[LINE_ROOM], *at = repeat(line, "every(x,", 1);

    START("sheet six a b c d e f");
    for (int row = 0; row < 585; row++) {
        char cells[64];
        int cell = 6 * row;
        snprintf(cells, sizeof cells, "six %d %d %d %d %d %d", cell, cell + 1, cell + 2, cell + 3, cell + 4, cell + 5);
        type(cells);
    }
    for (int leaf = 0; leaf < 50; leaf++) {
        int term = leaf == 0 ? 0 : 900000 + 6 * leaf;
        at += sprintf(at, "%sin(six,%d,%d,%d,%d,%d,%d)%s", leaf < 49 ? "or(" : "", term, term + 1, term + 2, term + 3,
                      term + 4, term + 5, leaf < 49 ? "," : "");
    }
    repeat(at, ")", 50);
    gives(line, "true, 7608 looks" STAYS);
    expect("100 nodes were asked", desk.asked[0].word_count == PLOTASK_QUERY_WORDS);
}

void check_ranges(void)
{
    check_unused_colour();
    check_no_rows();
    for (size_t i = 0; i < COUNT_OF(parts); i++)
        check_order(parts[i].part, parts[i].values);
    check_elsewhere();
    check_longest();
}
