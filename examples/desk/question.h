/* A question in words, such as and(in(hangs, v0), not(in(store, v0))), as plotask's nodes. */
#ifndef QUESTION_H
#define QUESTION_H

#include "desk.h"

/* The nodes, in the order in which they are written, and where in the line each word of them stands. */
struct tree {
    uint32_t words[QUESTION_ROOM];
    size_t at[QUESTION_ROOM];
    size_t nodes;
};

/* The question with this name, or null. */
struct question *find_question(struct desk *desk, struct word name);

/*
 * Takes a question. If it has over 100 nodes, it is read up to the first that is too many, and the tree has 101. A name
 * after some or every gets the number of a variable that the question does not write itself; if there is none, 16.
 */
bool take_question(struct line *line, const struct plot *plot, struct tree *tree);
/*
 * Whether a question, given by its words, is plain: it has no not and no every. The kinds of its nodes decide that, and
 * not what it means: not(not(..)) is not plain.
 */
bool is_plain(const uint32_t *words, size_t count);
/* Whether a word is one that a question starts with: in, equal, not, and, or, some or every. */
bool is_kind(struct word word);

#endif
