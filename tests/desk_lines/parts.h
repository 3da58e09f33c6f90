/* The parts of desk_lines. */
#ifndef PARTS_H
#define PARTS_H

void check_lines(void);     /* lines.c: a line's bytes, words that nobody knows, help, new and quit */
void check_sheets(void);    /* sheets.c */
void check_rows(void);      /* rows.c: cells, blanks and a full plot */
void check_fills(void);     /* fills.c: fills, and taking them back */
void check_reading(void);   /* reading.c: questions that cannot be read, or that plotask refuses */
void check_nodes(void);     /* nodes.c: the size of a question */
void check_names(void);     /* names.c: variables and the names for them */
void check_questions(void); /* questions.c: questions with names, allowances, and those that are kept */
void check_plain(void);     /* plain.c: which questions are plain, and what is said after unknown */
void check_changes(void);   /* changes.c: what becomes of the questions asked */
void check_ranges(void);    /* ranges.c: the values of some and every */
void check_ways(void);      /* ways.c: with a working list and without one */
void check_cards(void);     /* cards.c */
void check_refusals(void);  /* refusals.c: what each number means, and a plot that has no sheet yet */

#endif
