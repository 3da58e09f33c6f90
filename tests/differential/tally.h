/*
 * What a run has hit. A refusal that was never met has not been tested, so each number that a call can return, and each
 * case named here, has to be hit.
 */
#ifndef TALLY_H
#define TALLY_H

#include <stddef.h>
#include <stdint.h>

enum call { DECODE, INSERT, SUBSTITUTE, SUBSTITUTE_LOGGED, UNDO, NULL_COUNTS, ENCODE, ASK, ASK_UNLISTED, CALLS };

/* Room for every number that a call may return. */
enum { CODES = 64 };

/*
 * What is wrong with the counts of a plot that is refused with 41. Each call that takes a plot has to meet all of
 * these: right counts, where something else is at fault, and then plots that would be sound with the right counts.
 */
enum counts_fault {
    COUNTS_RIGHT, /* for the rows that begin in the words in use */
    COUNT_ONE_OVER,
    COUNT_ONE_SHORT,
    COUNT_OF_NO_RELATION, /* of one that does not exist: it is not 0 */
    COUNTS_COMPENSATE,    /* several are wrong, and their sum is right */
    COUNTS_FAULTS,
    COUNTS_OTHERWISE /* wrong in another way, or not the only fault */
};

/* Each case that has to be hit, with what the table prints for it. */
#define EVERY_CASE(CASE)                                                                           \
    CASE(NO_ROWS_ASKED, "a plot without rows is asked")                                            \
    CASE(FULL_PLOT_ASKED, "a plot of 4,096 words is asked")                                        \
    CASE(MANY_VALUES_LISTED, "2,000 different values or more are listed")                          \
    CASE(ROW_ENDS_AT_4096, "an inserted row ends at word 4,096")                                   \
    CASE(ROW_OVER_BY_ONE, "an inserted row needs word 4,097")                                      \
    CASE(ROW_FITS_SLICE, "an inserted row ends with the slice")                                    \
    CASE(ROW_OVER_SLICE_BY_ONE, "an inserted row needs one word more than the slice")              \
    CASE(CARD_OF_4096_WORDS, "a card of 4,096 words is decoded")                                   \
    CASE(CARD_OVER_BY_ONE, "a card of 4,097 words is refused")                                     \
    CASE(CARD_OF_65535_ROWS, "a card of 65,535 rows is refused")                                   \
    CASE(CARD_FITS_SLICE, "a decoded card ends with the slice")                                    \
    CASE(CARD_OVER_SLICE_BY_ONE, "a card needs one word more than the slice")                      \
    CASE(BLANK_GETS_NULL_200, "a blank gets null 200")                                             \
    CASE(BLANK_NEEDS_NULL_201, "a blank would need null 201")                                      \
    CASE(NULL_200_REPLACED, "null 200 is replaced")                                                \
    CASE(REPLACED_BY_ITSELF, "a null is replaced by itself")                                       \
    CASE(REPLACED_BY_ANOTHER_NULL, "a null is replaced by another")                                \
    CASE(ENTRY_FITS, "an entry ends with the log")                                                 \
    CASE(ENTRY_SHORT_BY_ONE, "an entry lacks one word of the log")                                 \
    CASE(ENTRY_OF_MANY_CELLS, "an entry of 500 cells or more is written")                          \
    CASE(FILL_USED_BEYOND_LOG, "a logged substitution: the words in use exceed the log")           \
    CASE(LOGGED_BY_ITSELF, "a null is replaced by itself and logged")                              \
    CASE(FRESH_BY_DECODE, "decode starts a log fresh that had words in use")                       \
    CASE(DECODED_OVER_MISCOUNT, "decode puts right counts for wrong ones")                         \
    CASE(UNDO_USED_BEYOND_LOG, "an undo: the words in use exceed the log")                         \
    CASE(ONE_WORD_IN_USE, "an undo: one word is in use")                                           \
    CASE(ENTRY_CUT_SHORT, "an undo: the words in use lack one of the entry")                       \
    CASE(ENTRY_OF_2_TO_32, "an undo: the entry's words overflow 32 bits")                          \
    CASE(PLACE_OF_RELATION, "an undo: a place is that of a relation's number")                     \
    CASE(PLACE_BEHIND_USE, "an undo: a place is behind the plot's words in use")                   \
    CASE(ENTRY_WITH_NULL_0, "an undo: the entry's null is 0")                                      \
    CASE(ENTRY_WITH_NULL_201, "an undo: the entry's null is 201")                                  \
    CASE(ENTRY_WITH_CELL, "an undo: the entry has the null's cell for its number")                 \
    CASE(ENTRY_OF_NO_CELLS, "an entry of no cells is undone")                                      \
    CASE(PLACE_TWICE, "an entry that names a place twice is undone")                               \
    CASE(PLACES_NOT_RISING, "an entry whose places do not rise is undone")                         \
    CASE(OUTPUT_FITS, "an encoded card fits its output exactly")                                   \
    CASE(OUTPUT_SHORT_BY_ONE, "an encoded card lacks one byte of output")                          \
    CASE(COUNTS_OF_199, "null counts lack one word of output")                                     \
    CASE(HUNDRED_NODES, "a query of 100 nodes is accepted")                                        \
    CASE(QUERY_OF_808_WORDS, "a query of 808 words is refused")                                    \
    CASE(CANDIDATE_OF_SIX, "a candidate of 6 cells is accepted")                                   \
    CASE(LIST_FITS, "the working list has just the plot's cells, and no term is needed")           \
    CASE(LIST_FITS_WITH_TERMS, "the working list has just the plot's cells and the terms")         \
    CASE(LIST_SHORT_BY_A_CELL, "the working list lacks one word, and no term is needed")           \
    CASE(LIST_SHORT_BY_A_TERM, "the working list lacks one word, that of a term")                  \
    CASE(LIST_OF_CELLS_ALONE, "the working list is too short, but has the plot's cells")           \
    CASE(LIST_OF_RANGE_ALONE, "the working list is too short, but has room for the range")         \
    CASE(ANSWERED_WITHOUT_LIST, "the list is too short: answered without it")                      \
    CASE(SPENT_WITHOUT_LIST, "the list is too short: refused with 46 without it")                  \
    CASE(COST_IS_BUDGET, "the cost is the budget")                                                 \
    CASE(COST_OVER_BY_ONE, "the cost is one more than the budget")                                 \
    CASE(LARGEST_BUDGET, "the budget is 4,294,967,295")                                            \
    CASE(COST_OVER_32_BITS, "the cost needs more than 32 bits")                                    \
    CASE(IDENTICAL_FIRST, "one row asked: identical to the first of several")                      \
    CASE(IDENTICAL_BETWEEN, "one row asked: identical to one in the middle")                       \
    CASE(IDENTICAL_LAST, "one row asked: identical to the last of several")                        \
    CASE(IDENTICAL_TWICE, "one row asked: identical to two or more")                               \
    CASE(UNIFYING_BEFORE, "one row asked: one before the identical one unifies")                   \
    CASE(OTHERS_BETWEEN, "one row asked: a row of another relation stands between")                \
    CASE(NO_IDENTICAL, "one row asked: identical to none, one before the last unifies")            \
    CASE(BELOW_ALL_ROWS, "one row asked: accepted, though all rows exceed the budget")             \
    CASE(BEYOND_BUDGET, "one row asked: the identical one exceeds the budget by one")              \
    CASE(RELATION_NUMBER_FIRST, "all values asked: one was a relation's number")                   \
    CASE(RELATION_NUMBER_ONLY, "all values asked: a relation's number is none")                    \
    CASE(LAST_OF_4096_WORDS, "all values asked: word 4,096 is one of them")                        \
    CASE(MANY_IN_4096_WORDS, "all values asked: 2,000 or more in 4,096 words")                     \
    CASE(MANY_IN_ONE_BUCKET, "all values asked: 200 or more of one bucket of a hash")              \
    CASE(RELATION_NUMBER_FOUND, "one value asked: it was a relation's number")                     \
    CASE(LAST_VALUE_FOUND, "one value asked: the last of 100 or more")                             \
    CASE(VALUES_IN_VALUES, "all values asked for each: 10 or more")                                \
    CASE(NAMED_VALUE_FOUND, "one value asked: only the query names it")                            \
    CASE(NAMED_BUT_NOT_ASKED, "all values asked: one is named in a node that is not asked")        \
    CASE(NAMED_IN_VALUES, "all values asked for each: two or more are named")                      \
    CASE(TERMS_LISTED, "named: a verdict, with terms in the list that the plot lacks")             \
    CASE(TERMS_LISTED_UNDER_46, "named: 46, with terms in the list that the plot lacks")           \
    CASE(NODES_OUT_OF_ORDER, "named: a verdict, with terms in the list not in the tree's order")   \
    CASE(NODES_OUT_OF_ORDER_UNDER_46, "named: 46, with terms in the list not in the tree's order") \
    CASE(TERM_IN_QUERY_ALONE, "named: a term that the plot lacks")                                 \
    CASE(TERM_IN_PLOT, "named: a term that the plot has")                                          \
    CASE(TERM_TWICE, "named: a term that stands twice or more")                                    \
    CASE(TERM_0, "named: 0, which the plot lacks")                                                 \
    CASE(TERM_999999, "named: 999,999, which the plot lacks")                                      \
    CASE(TERM_IS_RELATION, "named: a term that is also a relation's number")                       \
    CASE(TERM_IS_VARIABLE, "named: a term that is also a quantifier's variable number")            \
    CASE(TERM_IS_CHILD, "named: a term that is also a child's number")                             \
    CASE(RELATION_IS_NONE, "named: a relation's number is no value")                               \
    CASE(VARIABLE_IS_NONE, "named: a quantifier's variable number is no value")                    \
    CASE(CHILD_IS_NONE, "named: a child's number is no value")                                     \
    CASE(TERM_CHANGES_TRUTH, "named: the truth would be another without the terms in the range")   \
    CASE(TERM_RAISES_COST, "named: the cost would be lower without the terms in the range")        \
    CASE(TERM_LOWERS_COST, "named: the cost would be higher without the terms in the range")       \
    CASE(TERM_SPENDS_BUDGET, "named: 46, but a verdict without the terms in the range")            \
    CASE(CARD_DECODED_AGAIN, "an encoded card decodes to the same plot")                           \
    CASE(KEPT_TRUE, "true is kept over substitutions")                                             \
    CASE(KEPT_FALSE, "false is kept over substitutions")                                           \
    CASE(SETTLED_TRUE, "unknown becomes true")                                                     \
    CASE(SETTLED_FALSE, "unknown becomes false")                                                   \
    CASE(STAYED_UNKNOWN, "unknown stays unknown over substitutions")                               \
    CASE(LOWER_COST, "the cost is lower after substitutions")                                      \
    CASE(ROW_LOWER_COST, "one row asked: the cost is lower after substitutions")                   \
    CASE(LOGGED_BETWEEN_RUNS, "a substitution between the runs is logged")                         \
    CASE(LOG_FULL_BETWEEN_RUNS, "a substitution between the runs lacks room in the log")           \
    CASE(REFUSED_BETWEEN_RUNS, "a substitution between the runs is refused")                       \
    CASE(CANDIDATE_CHANGED, "a substitution changes the candidate")                                \
    CASE(CANDIDATE_NULL_STAYS, "a null of the candidate alone stays")                              \
    CASE(TWO_VALUED_YES, "no null is left, and two-valued logic says yes")                         \
    CASE(TWO_VALUED_NO, "no null is left, and two-valued logic says no")                           \
    CASE(HISTORY_FROM_CARD, "a history starts with a card")                                        \
    CASE(HISTORY_LOG_FULL, "a history: a substitution lacks room in the log")                      \
    CASE(HISTORY_LOG_EMPTY, "a history: no substitution is left to undo")                          \
    CASE(UNDO_AFTER_INSERT, "a history: a substitution is undone after an insert")                 \
    CASE(UNDO_OVER_FILL, "a history: what an earlier substitution wrote is back")                  \
    CASE(UNDO_BY_ITSELF, "a history: a null's substitution by itself is undone")                   \
    CASE(EQUAL_CELL_STAYS, "a history: an older cell that equals an undone one stays")             \
    CASE(LATER_CELL_STAYS, "a history: a later cell that equals an undone one stays")              \
    CASE(LATER_NULL_STAYS, "a history: a later row keeps the null that was replaced")              \
    CASE(ALL_UNDONE, "a history with inserts: all is undone, and the rows are as entered")

enum named_case {
#define CASE(name, text) name,
    EVERY_CASE(CASE)
#undef CASE
        NAMED_CASES
};

struct tally {
    uint64_t calls;
    uint64_t numbers[CALLS][CODES];
    uint64_t unsound[CALLS][COUNTS_FAULTS]; /* refusals with 41; decode, which reads no plot, has none here */
    uint64_t truths[3];
    uint64_t cases[NAMED_CASES];
};

extern struct tally tally;

const char *call_name(enum call call);
void note(enum named_case named_case);
/* Prints the table, and checks that everything was hit. */
void check_tally(void);

#endif
