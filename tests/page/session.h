/*
 * What the lines typed so far have made: the plot, by the second implementation's calls, its fills, the questions that
 * have names, and the questions asked.
 */
#ifndef SESSION_H
#define SESSION_H

#include "answer.h"
#include "cells.h"
#include "plotask.h"
#include "reference/header.h"
#include "sheets.h"

enum {
    PAGE_LINE = 1024,    /* bytes of a line of the page, at most, with an ending 0 */
    ALLOWANCE = 1000000, /* of a question that is asked without one */
    MOST_QUESTIONS = 32,
    LOG_WORDS = 4096,
    MOST_FILLS = LOG_WORDS / 3 /* a fill is logged in three words or more */
};

struct fill {
    uint32_t mark;
    uint32_t cell;
};

/* How a question is asked. */
struct manner {
    uint32_t allowance;
    bool is_unlisted;
};

struct question {
    char label[PAGE_LINE]; /* its name, or its text as typed if it has none */
    uint32_t words[PLOTASK_QUERY_WORDS];
    size_t length;
};

struct asked {
    struct question question;
    struct cells row;    /* as typed */
    size_t fills_before; /* of the session's fills, those that were made before the question was asked */
    struct manner manner;
    struct answer answer;
    struct answer before; /* the answer before the plot changed last */
};

struct session {
    const char *program;
    struct sheets sheets;
    uint32_t header[HEADER_WORDS];
    uint32_t words[MOST_WORDS];
    uint32_t log[LOG_WORDS];
    size_t log_used;
    struct fill fills[MOST_FILLS]; /* those that can still be taken back */
    size_t fill_count;
    struct question named[MOST_QUESTIONS];
    size_t named_count;
    struct asked asked[MOST_QUESTIONS]; /* in the order in which they were asked last */
    size_t asked_count;
};

/* Forgets everything but the program. */
void start_session(struct session *session);

bool start_sheet(struct session *session, const char *name, uint32_t columns);

/* The calls below return 0 or the number of a refusal, and change nothing if they are refused. */

/* Gives each blank of the row a mark of its own, and enters the row. */
uint32_t enter_row(struct session *session, uint32_t sheet, struct cells *row);

uint32_t make_fill(struct session *session, struct fill fill, uint32_t *count);

/* Takes the latest fill back; `mark` gets its mark. */
uint32_t take_fill_back(struct session *session, uint32_t *mark, uint32_t *count);

#endif
