/* Random plots, logs, cards, queries, candidates and program inputs: valid ones, and damaged ones. */
#ifndef GENERATE_H
#define GENERATE_H

#include "random.h"
#include "reference/reference.h"

enum {
    HEADER_ROOM = HEADER_WORDS + 2, /* words: some headers are to be too long */
    PLOT_ROOM = 4400,               /* words: some plots are to be over 4,096; a working list needs no more */
    LOG_ROOM = 12000,               /* words: three entries of a full plot */
    CARD_ROOM = 327700,             /* bytes: 65,535 rows of one column */
    QUERY_ROOM = 832,               /* words: 101 nodes, and what damage adds */
    CELLS_ROOM = 16,
    INPUT_ROOM = 80000 /* bytes: more than a pipe holds */
};

struct any_plot {
    uint32_t header[HEADER_ROOM];
    size_t header_length;
    uint32_t words[PLOT_ROOM];
    size_t length;
};

struct any_log {
    uint32_t words[LOG_ROOM];
    size_t length;
    size_t used; /* more than the length if damaged */
};

struct any_card {
    uint8_t bytes[CARD_ROOM];
    size_t length;
    size_t words;        /* that its rows take in a plot, before any damage */
    uint32_t last_blank; /* the null that its last blank needs; 0 if that was not counted */
};

struct any_query {
    uint32_t words[QUERY_ROOM];
    size_t length;
};

struct any_cells {
    uint32_t cells[CELLS_ROOM];
    size_t length;
};

struct any_input {
    uint8_t bytes[INPUT_ROOM];
    size_t length;
};

/*
 * The cells that a plot, its queries and its substitutions draw from: few, so that equal cells meet, or all if wide. In
 * some palettes every constant is also the number of a relation.
 */
struct palette {
    bool wide;
    uint32_t constants[6];
    size_t constant_count;
    uint32_t nulls[6];
    size_t null_count;
};

struct palette make_palette(struct random *random);
uint32_t any_constant(struct random *random, const struct palette *palette);
/* The number of a null. */
uint32_t any_null(struct random *random, const struct palette *palette);
uint32_t any_cell(struct random *random, const struct palette *palette);
/* A number at a limit of some rule, or next to the old one. */
uint32_t odd_number(struct random *random, uint32_t old);

/* Most plots are small, some are full and a few have over 4,096 words in use. */
void make_plot(struct random *random, const struct palette *palette, struct any_plot *plot);
void damage_plot(struct random *random, struct any_plot *plot);
/*
 * Changes one count of an undamaged plot by one, up or down (from 0 to 4,294,967,295), also that of a relation that
 * does not exist; or two counts, one up and one down, so that their sum stays. Nothing else is changed.
 */
void miscount_rows(struct random *random, struct any_plot *plot);
/*
 * Counts the rows of each relation in a plot's words. In a damaged plot it counts the rows that the words in use seem
 * to be, up to the first of a relation that no plot can have; a row that is cut short is counted too.
 */
void count_relation_rows(const struct any_plot *plot, uint32_t rows[MOST_RELATIONS]);
/* The number of cells of an undamaged plot, and of its values. */
size_t count_cells(const struct any_plot *plot);
size_t count_values(const struct any_plot *plot);
/* Writes the index, among the words, of the first cell of each value, and returns the number of values. */
size_t first_places(const struct any_plot *plot, size_t places[PLOT_ROOM]);
/* The bucket of a cell in a hash table, so that plots can be made whose values all meet in one. */
enum { BUCKETS = 1024 };
uint32_t bucket_of(uint32_t cell);

/* A log for an undamaged plot: fresh, or of entries that can be undone, also ones that no substitution writes. */
void make_log(struct random *random, const struct any_plot *plot, struct any_log *log);
/* The same length and arbitrary words, none of them in use. */
void make_fresh_log(struct random *random, struct any_log *log, size_t length);

/* What damage_log did. Only after CHANGED_AT_RANDOM an undo may still be accepted. */
enum log_damage {
    USED_BEYOND_LENGTH,
    USED_ONE,
    NUMBER_OVER_BY_ONE, /* of the last entry's places, for the words in use */
    NUMBER_NEAR_2_TO_32,
    PLACE_IS_RELATION,
    PLACE_IS_BEHIND,
    NULL_IS_0,
    NULL_IS_201,
    NULL_IS_ITS_CELL, /* 1,000,000 + its number */
    CHANGED_AT_RANDOM
};

enum log_damage damage_log(struct random *random, const struct any_plot *plot, struct any_log *log);

void make_card(struct random *random, const struct palette *palette, struct any_card *card);
/* As many rows as two bytes can count, far more than a plot can hold. */
void make_huge_card(struct random *random, struct any_card *card);
void damage_card(struct random *random, struct any_card *card);

void make_candidate(struct random *random, const struct palette *palette, struct any_cells *candidate);
void damage_candidate(struct random *random, struct any_cells *candidate);

/* A query for a plot with this header and number of values, and for k candidate cells. */
void make_query(struct random *random, const struct palette *palette, const uint32_t *header, size_t value_count,
                size_t k, struct any_query *query);
/*
 * A query of one node, for a plot that has rows: does the candidate stand in a relation? The candidate is a row of that
 * relation, or differs from one in a cell.
 */
void make_row_query(struct random *random, const struct palette *palette, const struct any_plot *plot,
                    struct any_cells *candidate, struct any_query *query);

/*
 * Queries about the range alone, which cost 1 for each value that they come to. Those of the second half also have two
 * equalities of constants, in nodes numbered before and after the others. They are asked only if UP_TO_ONE_AND_NAMED
 * does not find its cell: the first, and the second unless the first is true.
 */
enum value_query {
    ALL_VALUES,
    VALUES_UP_TO_ONE,  /* up to and including the candidate's first cell, or all if that is none of them */
    VALUES_UP_TO_EACH, /* for each value, up to and including itself */
    ALL_AND_NAMED,
    UP_TO_ONE_AND_NAMED,
    UP_TO_EACH_AND_NAMED,
    NO_VALUE_QUERY
};

/* The node of the equality of constants that is asked first. */
enum { FIRST_NAMED_NODE = 5 };

/* One of these, for a plot that has rows, with its candidate. */
void make_value_query(struct random *random, const struct any_plot *plot, struct any_cells *candidate,
                      struct any_query *query);
enum value_query value_query_of(const struct any_query *query);

/* A query of any of these kinds; the candidate is changed if the query has one of its own. */
void make_any_query(struct random *random, const struct palette *palette, const struct any_plot *plot,
                    struct any_cells *candidate, struct any_query *query);
void damage_query(struct random *random, struct any_query *query);
/* A query whose cost is above 2^32 if the plot has 8 values or more. */
void make_endless_query(struct random *random, struct any_query *query);

/* The constants among a node's terms, and among those of all nodes by number, each time one stands there. */
size_t constants_of_node(const struct any_plot *plot, const uint32_t *node, uint32_t constants[MOST_COLUMNS]);
size_t constants_of_query(const struct any_plot *plot, const struct any_query *query, uint32_t constants[QUERY_ROOM]);
/* The words that a working list needs, for an undamaged plot. */
size_t list_need(const struct any_plot *plot, const struct any_query *query);
/* The values of an undamaged plot, and what a query ranges over there; each returns their number. */
size_t values_of_plot(const struct any_plot *plot, uint32_t values[PLOT_ROOM]);
size_t range_of(const struct any_plot *plot, const struct any_query *query, uint32_t range[PLOT_ROOM]);
/* Appends the constants that a range lacks, each once, and returns the number of its values. */
size_t add_new(uint32_t *range, size_t count, const uint32_t *constants, size_t constant_count);
bool is_among(const uint32_t *values, size_t count, uint32_t value);

/* What the reference says with this budget: returns the number, and writes the cost if that is 0. */
uint32_t foresee(const struct any_plot *plot, const struct any_query *query, const struct any_cells *candidate,
                 uint32_t budget, uint32_t *cost);
/* A budget near the cost if that is at most `most`, else one that is soon exceeded. */
uint32_t any_budget(struct random *random, const struct any_plot *plot, const struct any_query *query,
                    const struct any_cells *candidate, uint32_t most);

/* Input bytes for the program, on which it ends soon: fields that fit or are damaged, and bytes damaged afterwards. */
void make_input(struct random *random, struct any_input *input);

#endif
