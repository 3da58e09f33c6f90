#include "parts.h"
#include "talk.h"

#include <ctype.h>
#include <string.h>

/* Questions as deep as they can be, of each kind: copies of `start`, a leaf, and as many copies of `end`. */
struct chain {
    const char *start;
    const char *end;
    size_t nodes;       /* of a copy */
    const char *answer; /* to the question of 100 nodes */
};

static const struct chain chains[] = {
    {"not(", ")", 1, "false, 1 look"},
    {"some(x,", ")", 1, "true, 1 look"},
    {"every(x,", ")", 1, "true, 1 look"},
    {"some( v0 ,", ")", 1, "true, 1 look"},
    {"every(v15,", ")", 1, "true, 1 look"},
    {"and(equal(1,1),", ")", 2, "false, 50 looks"},
    {"and(", ",equal(1,1))", 2, "false, 1 look"},
    {"or(equal(0,1),", ")", 2, "false, 50 looks"},
    {"or(", ",equal(0,1))", 2, "false, 50 looks"},
};

static void put_chain(char *line, const char *command, const struct chain *chain, size_t copies, const char *leaf)
{
    char *at = repeat(line, command, 1);

    at = repeat(at, chain->start, copies);
    at = repeat(at, leaf, 1);
    repeat(at, chain->end, copies);
}

/* Writes a chain of 100 nodes: where a copy has two of them, the leaf has two as well. */
static void put_hundred(char *line, const char *command, const struct chain *chain)
{
    put_chain(line, command, chain, chain->nodes == 1 ? 99 : 49, chain->nodes == 1 ? "equal(1,1)" : "not(equal(1,1))");
}

/* Puts a ^ before a question's node: each node has one opening bracket. */
static void mark_node(char *line, size_t number)
{
    char *at = line;

    for (; number > 0; number -= *at++ == '(')
        ;
    for (at--; isalpha((unsigned char)at[-1]); at--)
        ;
    memmove(at + 1, at, strlen(at) + 1);
    *at = '^';
}

/* The plot has no value but the one that the leaf names: a second one would double the looks at each some or every. */
static void check_hundred(const struct chain *chain)
{
    char line[LINE_ROOM], answer[80];

    START("sheet hangs lamp", "hangs 1");
    snprintf(answer, sizeof answer, "%s: it stays so however the marks are filled in", chain->answer);
    put_hundred(line, "ask ", chain);
    says(line, answer);
    expect("100 nodes were asked", desk.asked[0].word_count == PLOTASK_QUERY_WORDS);
    put_hundred(line, "question q: ", chain);
    says(line, "q is a question now");
    says("ask q", answer);
    expect("100 nodes were asked by a name", desk.asked[1].word_count == PLOTASK_QUERY_WORDS);
}

/* A node more; and as many as a line has room for, with no bracket closed. */
static void check_more(const struct chain *chain)
{
    static const char *const commands[] = {"ask ", "  question q: "};
    char line[LINE_ROOM + 1];

    START("sheet hangs lamp", "hangs 201");
    for (size_t i = 0; i < COUNT_OF(commands); i++) {
        put_chain(line, commands[i], chain, chain->nodes == 1 ? 100 : 50, "equal(1,1)");
        mark_node(line, 101);
        refuses(line, 21);
        size_t copies = (LINE_ROOM - 1 - strlen(commands[i])) / strlen(chain->start);
        put_chain(line, commands[i], &(const struct chain){chain->start, "", 0, ""}, copies, "");
        mark_node(line, 101);
        refuses(line, 21);
    }
}

/* A question is read up to the node that is one too many. A fault before that comes first, and none after it. */
static void check_faults(void)
{
    char line[LINE_ROOM];

    START("sheet hangs lamp", "hangs 201");
    put_chain(line, "ask ", &chains[0], 100, "^equal");
    refuses(line, 21);
    put_chain(line, "ask ", &chains[0], 100, "^in(lamp, ~ 1000000 unlisted unlisted");
    refuses(line, 21);
    put_chain(line, "question q: ", &chains[0], 100, "^every(m4, v99) ");
    refuses(line, 21);
    put_chain(line, "ask ", &chains[0], 100, "^lamp(");
    misses(line, "in, equal, not, and, or, some or every", "lamp");
    put_chain(line, "ask or(equal(1,^x),", &chains[0], 200, "equal(1,1)");
    misses(line, "a value, a variable such as v0, or a name after some or every", "x");
    /* plotask counts the nodes before it tests their words, and the row */
    put_chain(line, "ask or(in(9, m4),", &chains[0], 98, "^in(hangs,v0)) 1000000");
    refuses(line, 21);
}

void check_nodes(void)
{
    for (size_t i = 0; i < COUNT_OF(chains); i++) {
        check_hundred(&chains[i]);
        check_more(&chains[i]);
    }
    check_faults();
}
