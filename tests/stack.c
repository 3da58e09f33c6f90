/*
 * The stack that a query takes, with a working list and without one. No contract can bound it, so it is measured here,
 * with the queries for which `make bench` prints it. The bounds are a little above what these queries take.
 */
#include "measure/stack.h"
#include "support/checks.h"
#include "work/work.h"

#include <inttypes.h>
#include <stdio.h>

/* A way of asking, and the most bytes of stack that it may take. */
static const struct way {
    const char *name;
    work *ask;
    size_t most_short; /* for a query of 1 or 2 nodes */
    size_t most_deep;  /* for the longest chain of one kind */
} ways[] = {
    {"ask", ask, 3680, 23552},
    {"ask unlisted", ask_unlisted, 3264, 23168},
};

/* The most bytes that one more level may take. */
enum { MOST_LEVEL = 216 };

static size_t stack_by(const struct way *way)
{
    must_do(way->ask);
    return stack_of(way->ask);
}

/* Checks a bound, and returns the bytes. */
static size_t check_stack(const struct way *way, const char *query, size_t most)
{
    size_t bytes = stack_by(way);
    if (!check(bytes <= most))
        printf("%s, %s: %zu bytes of stack, more than %zu\n", way->name, query, bytes, most);
    return bytes;
}

/* Queries of 1 and 2 nodes, over the plot as it is. */
static void check_short(const struct way *way)
{
    ask_nothing(&now);
    check_stack(way, "1 node, two terms that are equal", way->most_short);
    ask_values(&now);
    check_stack(way, "2 nodes, every value equals itself", way->most_short);
    ask_chain(&now, PLOTASK_NOT, 1);
    check_stack(way, "1 node, a row of six columns", way->most_short);
    ask_chain(&now, PLOTASK_NOT, 2);
    check_stack(way, "2 nodes, not", way->most_short);
    ask_chain(&now, PLOTASK_SOME, 2);
    check_stack(way, "2 nodes, some", way->most_short);
    ask_chain(&now, PLOTASK_EVERY, 2);
    check_stack(way, "2 nodes, every", way->most_short);
}

/* Chains of one kind, the longer one as long as a query can be. A level of "and" takes two nodes. */
static const struct chain {
    const char *name;
    uint32_t kind;
    uint32_t levels, most_levels;
} chains[] = {
    {"a chain of not", PLOTASK_NOT, PLOTASK_NODES / 2, PLOTASK_NODES},
    {"a chain of some", PLOTASK_SOME, PLOTASK_NODES / 2, PLOTASK_NODES},
    {"a chain of every", PLOTASK_EVERY, PLOTASK_NODES / 2, PLOTASK_NODES},
    {"a chain of and", PLOTASK_AND, PLOTASK_NODES / 4, PLOTASK_NODES / 2},
};

static void ask_levels(uint32_t kind, uint32_t levels)
{
    if (kind == PLOTASK_AND)
        ask_and_chain(&now, levels - 1);
    else
        ask_chain(&now, kind, levels);
}

static void check_chain(const struct way *way, const struct chain *chain)
{
    uint32_t more = chain->most_levels - chain->levels;
    ask_levels(chain->kind, chain->levels);
    size_t shorter = stack_by(way);
    ask_levels(chain->kind, chain->most_levels);
    size_t longer = check_stack(way, chain->name, way->most_deep);
    if (!check(longer > shorter && longer - shorter <= more * MOST_LEVEL))
        printf("%s, %s: %zu bytes of stack for %" PRIu32 " levels, %zu for %" PRIu32 "\n", way->name, chain->name,
               shorter, chain->levels, longer, chain->most_levels);
}

int main(void)
{
    for (size_t i = 0; i < sizeof ways / sizeof *ways; i++) {
        make_plot(&now, PLOTASK_COLUMNS, FULL_ROWS, PLOTASK_CELLS);
        check_short(&ways[i]);
        make_null_row(&now);
        check_short(&ways[i]);
        for (size_t j = 0; j < sizeof chains / sizeof *chains; j++)
            check_chain(&ways[i], &chains[j]);
    }
    return finish_checks();
}
