/* A query as the text of a question that a crew might type. */
#ifndef SPELLING_H
#define SPELLING_H

#include "desk/desk.h"
#include "generators/generate.h"

enum {
    TEXT_ROOM = 16384, /* bytes of a text: more than a line has */
    MOST_SPELLED = (MOST_NODES + 1) * (NODE_WORDS - 1)
};

/* A number that the library tests: that of a sheet, of a variable after some or every, or of a term. */
struct spelled {
    enum { SPELLED_SHEET, SPELLED_VARIABLE, SPELLED_TERM } what;
    uint32_t number;
    uint32_t bound; /* a bit for each variable that is bound there */
    size_t at;      /* in the text, as also the length */
    size_t length;
};

struct spelling {
    char text[TEXT_ROOM];
    size_t length;
    /* the query again, its nodes numbered in the order of the text, and where each node stands there */
    uint32_t words[(MOST_NODES + 1) * NODE_WORDS];
    size_t node_at[MOST_NODES + 1];
    size_t nodes;
    /* all numbers in the order of the text, which is also that of the library's tests */
    struct spelled spelled[MOST_SPELLED];
    size_t spelled_count;
    bool out_of_variables; /* for a name: then the words have the variable 16 there */
};

/*
 * Spells a query whose children are in order. Variables get names or numbers, sheets too, and blanks are put between
 * the words unless it should be short. The sheets have the names that the desk gives them.
 */
void spell(struct random *random, const struct any_query *query, const struct plot *sheets, bool is_short,
           struct spelling *spelling);

/* A wrong number somewhere in a query, or a variable that may have no value. */
void misspell(struct random *random, const uint32_t *header, struct any_query *query);

/* The first number for which the question is refused, with a row of this many cells; null if there is none. */
const struct spelled *first_fault(const struct spelling *spelling, const uint32_t *header, size_t cells,
                                  uint32_t *refusal);

#endif
