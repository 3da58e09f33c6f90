/*
 * The desk: a plot with named sheets, the fills that can be taken back, and the questions asked of it. All of it has a
 * fixed size.
 */
#ifndef DESK_H
#define DESK_H

#include "line.h"
#include "plotask.h"

#include <stdio.h>

enum {
    LOG_WORDS = 4096,      /* of the log of fills */
    FILLS = LOG_WORDS / 3, /* that it can note: an entry has three words at least */
    QUESTIONS = 32,        /* with a name */
    ASKED = 32,            /* questions that are asked again after each change */
    ALLOWANCE = 1000000,   /* looks of a question that is asked without an allowance */
    /* one cell and one node more than plotask takes, so that it can refuse them */
    ROW_ROOM = PLOTASK_COLUMNS + 1,
    QUESTION_ROOM = PLOTASK_QUERY_WORDS + PLOTASK_NODE_WORDS
};

/* The names of a sheet and its columns. The plot itself has numbers only. */
struct sheet {
    char name[NAME_ROOM];
    char columns[PLOTASK_COLUMNS][NAME_ROOM];
};

struct fill {
    uint32_t mark; /* its number */
    uint32_t cell;
};

struct plot {
    struct plotask_header header;
    uint32_t words[PLOTASK_WORDS];
    struct sheet sheets[PLOTASK_RELATIONS];
    uint32_t log[LOG_WORDS];
    size_t log_used;
    struct fill fills[FILLS]; /* those in the log, for the rows that were asked about: a log has no cells */
    size_t fill_count;
};

/* A question with a name. Its text is read each time it is asked. */
struct question {
    char name[NAME_ROOM];
    char text[LINE_ROOM];
    bool plain; /* noted when it gets the name, since the text cannot be read if its sheets are gone */
};

struct answer {
    uint32_t refusal; /* or 0; then the others mean something */
    uint32_t truth;
    uint32_t looks;
};

/* A question that was asked, and its last answer. */
struct asked {
    char label[LINE_ROOM]; /* its name, or its text if it has none */
    uint32_t words[QUESTION_ROOM];
    size_t word_count;
    uint32_t cells[ROW_ROOM]; /* of the row, as they were when it was asked */
    size_t cell_count;
    size_t fill_count; /* fills that had been made by then; later ones are made in the row too */
    uint32_t allowance;
    bool unlisted;
    struct answer answer;
};

struct desk {
    FILE *out;
    struct plot plot;
    struct question questions[QUESTIONS];
    size_t question_count;
    struct asked asked[ASKED];
    size_t asked_count;
};

/* Starts a desk without sheets or questions. Its answers go to `out`. */
void desk_start(struct desk *desk, FILE *out);

enum line_end { LINE_DONE, LINE_REFUSED, LINE_QUIT };

/*
 * Does what a line says, and answers. A line that is refused changes nothing. The line may hold any bytes; a carriage
 * return at its end is not read. If it is longer than LINE_ROOM, none of it is.
 */
enum line_end desk_line(struct desk *desk, const char *bytes, size_t length);

/* A command reads the rest of its line. False if it was refused, with the line's fault. */
typedef bool command(struct desk *desk, struct line *line);

command make_sheet;                            /* sheets.c */
command enter;                                 /* rows.c */
command fill, take_back;                       /* fill.c */
command show, census;                          /* show.c */
command name_question, ask, questions, forget; /* ask.c */
command load, save;                            /* card.c */

/* Whether a word is the first of a command. */
bool is_command(struct word word);

#endif
