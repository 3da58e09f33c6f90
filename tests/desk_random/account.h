/*
 * An account of a desk, kept by the rules and the reference: the rows as they were entered, the fills that have not been
 * taken back, and the questions asked. From it follows what the desk should hold and answer.
 */
#ifndef ACCOUNT_H
#define ACCOUNT_H

#include "spelling.h"

enum {
    MOST_ROWS = MOST_WORDS / 2,
    MOST_FILLS = 64, /* of one account */
    ANSWER_ROOM = 2 * LINE_ROOM * (ASKED + QUESTIONS)
};

/* A row with the number of fills that had been made when it was entered or asked about: later ones change it too. */
struct dated_row {
    uint32_t sheet; /* of a row that was entered */
    struct any_cells cells;
    size_t fills;
};

struct verdict {
    uint32_t refusal;
    uint32_t truth;
    uint32_t looks;
};

struct kept {
    char label[LINE_ROOM];
    struct any_query query;
    struct dated_row row;
    uint32_t allowance;
    bool unlisted;
    struct verdict verdict;
};

/* A question with a name. */
struct named {
    const char *name;
    char text[LINE_ROOM];
    bool is_plain;
};

struct account {
    struct dated_row rows[MOST_ROWS];
    size_t row_count;
    size_t rows_of[MOST_RELATIONS];
    struct {
        uint32_t mark;
        uint32_t cell;
        size_t log_words;
    } fills[MOST_FILLS];
    size_t fill_count;
    struct named named[QUESTIONS];
    size_t named_count;
    struct kept kept[ASKED];
    size_t kept_count;
    struct any_plot plot; /* as it is now */
    char answer[ANSWER_ROOM];
    size_t answer_length;
};

/* Starts an account of a desk with these sheets and no rows. */
void open_account(struct account *account, const uint32_t header[HEADER_WORDS]);

/* What becomes of an accepted line, and what is answered to it. */
void account_row(struct account *account, const char *sheet_name, uint32_t sheet, const struct any_cells *cells,
                 const bool *blank);
void account_fill(struct account *account, uint32_t mark, uint32_t cell);
void account_take_back(struct account *account);
void account_name(struct account *account, const char *name, const char *text, const struct any_query *query);
void account_asked(struct account *account, struct kept *kept);
void account_forgotten(struct account *account);
void account_questions(struct account *account);
/* The plot is saved as a card, and read again. */
void account_saved(struct account *account, const char *path);
void account_loaded(struct account *account, const char *path);

/* What the reference says of a question. */
struct verdict refer(const struct account *account, const struct any_query *query, const struct any_cells *row,
                     uint32_t allowance);

/* Whether a query that is not refused has neither not nor every, from its top down to its leaves. */
bool is_plain_query(const struct any_query *query);

uint32_t count_mark(const struct account *account, uint32_t mark);
size_t log_words_used(const struct account *account);
/* The highest mark of the plot, of the fills, which may be taken back, and of the rows asked about; 0 if none. */
uint32_t highest_of_all(const struct account *account);

/* The cells of a row as they are now. */
struct any_cells row_now(const struct account *account, const struct dated_row *row);

#endif
