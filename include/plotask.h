/*
 * plotask.h: the calls of plotask, for a host in C99, C11 or C++11.
 *
 * WHAT IT IS
 *
 * A plot is a few sheets of rows. A cell of a row is an inked value, or a numbered pencil mark: a value that nobody has
 * decided yet. The same mark is the same undecided value in every row and sheet. A question about a plot gets one of
 * three verdicts: true, false or unknown. In the field's terms this is an incomplete database with marked nulls, asked
 * first-order queries under three-valued logic with unification.
 *
 * Names are mostly the field's terms; the explanations use the crews' words:
 *
 *   plot          instance            question             query
 *   head          header              candidate row        candidate
 *   sheet         relation            verdict              truth value
 *   column count  arity               looks                cost
 *   inked value   constant            allowance            budget
 *   mark          (marked) null       the plot's values    active domain
 *   fill          substitute          working list         domain buffer
 *   census        null counts         entering             insert
 *   reading       decode              writing              encode
 *   noted fill    logged fill         taking back          undo
 *   note          entry (of a log)
 *
 * A card is a plot as bytes, to be read or written. A blank is a column that a card leaves open; reading gives it a
 * mark of its own.
 *
 * THE RULES FOR EVERY CALL
 *
 * - It returns 0 if it is accepted, and otherwise the number of the refusal (enum plotask_refusal). If there are
 *   several faults, it returns the one that comes first in the call's list of refusals.
 * - It may be given any number, and a slice of any length and content, and it always ends. There is nothing to test
 *   first.
 * - A refused call changes nothing that it was lent, with one exception: the working list of a question that is refused
 *   with 46 has the question's range at its start. If a question is asked without a list, there is no exception.
 * - An accepted call changes only what is named under "Writes". All other elements of a slice keep their content.
 * - A slice is a pointer and a length. The length counts elements: words for uint32_t, bytes for uint8_t. Of an empty
 *   slice, one of length 0, the pointer may be null: a host without a candidate or a log passes NULL, 0.
 * - The host has to make sure of what no call can test: a pointer is aligned for its type, and points to as many
 *   elements as the length says, so it is not null unless the length is 0. count, truth, cost and log_used are single
 *   elements, and never null. What a pointer without const lends, the whole slice, must not overlap with anything else
 *   that is lent to the same call, even if the call would write none of it: the host inserts a row from cells of its
 *   own, not from a part of the plot, and its log shares no word with plot, header or log_used.
 * - It allocates nothing, keeps nothing after it returns, and has no variables of its own. Calls on different plots,
 *   each with its own log, may run at the same time, and so may calls that only read the same plot: each question with
 *   its own working list, or with none.
 *
 * CELLS AND ROWS
 *
 * A cell is a 32-bit number. 0 to 999,999 is an inked value. 1,000,000 + m is mark m, with m from 1 to 200. No other
 * number is a cell.
 *
 * A plot is a struct plotask_header and an array of words. A row is one word with its sheet number, counted from 0, and
 * then its cells. The rows follow each other from the first word, in the order in which they were entered. Equal rows
 * may occur twice: the verdict is the same as with one of them, but a repeated row may cost a look.
 *
 * A plot is sound if its header has 1 to 8 sheets, gives each of them 1 to 6 columns and every other sheet 0, if the
 * words in use are at most 4,096, at most as many as the slice has, and whole rows: sheet numbers that the header has,
 * and cells, and if each of the header's eight row counts is the number of that sheet's rows, so 0 for a sheet that
 * does not exist. Every other plot is refused with 41.
 *
 * The plot's values are its different cells, of all sheets and columns, marks included, in the order in which they
 * first occur in the words. A question's range, the values that "some" and "every" try, is the plot's values and then
 * the inked values that the question itself names (plotask_ask).
 *
 * THE LOG
 *
 * A host that may want to take fills back lends a log: an array of words of any length, and a size_t log_used, the
 * number of its words in use. plotask_substitute_logged fills a mark and appends an entry to the words in use;
 * plotask_undo takes the last entry off again and puts its mark back into exactly the cells that the fill had taken it
 * from. Each call stores the new log_used.
 *
 * An entry is the places of the n cells that held the mark, in rising order, then the number of the mark, then n. A
 * place is the index of a cell's word in the plot, counted from 0. So an entry has n + 2 words. In a plot of the words
 * 0, 201, 1, PLOTASK_MARK(1), the fill of mark 1 is logged as 3, 1, 1.
 *
 * - A fresh log is one with log_used = 0, whatever its words hold. An accepted plotask_decode stores that 0, since the
 *   entries of the old plot mean nothing in the new one. A host that starts a plot without a card stores it itself.
 * - A log belongs to one plot. From a fresh log, logged fills, undos and inserts may follow each other in any order:
 *   the plot is always its rows as they were entered, with the fills that have not been taken back. A fill, and so its
 *   undo, does not touch rows that are entered after it. Here plotask_undo is never refused with 49, and with 48
 *   exactly if no fill is left.
 * - plotask_undo tests that an entry could belong to this plot, not that it does. If anything else writes the plot
 *   between a logged fill and its undo, plotask_substitute too, then the undo writes the mark over whatever the cells
 *   hold by then.
 * - An undo is no fill: a verdict that was true or false may be unknown again, or change once the mark is filled anew,
 *   and the looks may rise. The candidate is the host's, as with a fill: if it was filled too, the host puts it back.
 *
 * MEMORY
 *
 *   plot            4,096 words   16,384 bytes
 *   working list    3,810 words   15,240 bytes   PLOTASK_LIST_WORDS, enough for every plot and question
 *   question          800 words    3,200 bytes
 *   header             18 words       72 bytes
 *   candidate           6 words       24 bytes
 *
 * These are 34,920 bytes, within 40 KiB. Smaller arrays will do for smaller plots and questions. Between questions the
 * working list is free: it may hold a card (at most PLOTASK_CARD_BYTES), as (uint8_t *)list with 4 bytes for each word,
 * or the 200 words of a census.
 *
 * Only plotask_ask needs the working list. A host that asks by plotask_ask_unlisted alone can leave it out, or lend its
 * memory to something else for as long as it likes: plot, question, header and candidate are 19,680 bytes.
 *
 *   log             for each fill 2 words, and 1 word for each cell that it fills; a fill writes at most 3,512 words
 *                   (PLOTASK_ENTRY_WORDS), 14,048 bytes
 *
 * The log is beside all these, and only logged fills and undos need it. It cannot share memory with the working list of
 * a host that lends one, since it has to be kept between questions. Beside the largest arrays above, 40 KiB have room
 * for a log of 1,510 words, the 6,040 bytes that are left; if the working list is left out, of 5,320 words.
 *
 * STACK, in bytes below the caller's own frame, as measured by `make bench` (docs/BENCHMARKS.md):
 *
 *   ask            3,392 for a question of 1 node, and for any of up to 4 levels, where the tests of plot and question
 *                  go deepest; at most 144 more for each further level; 17,176 for 100 nodes in one chain
 *   ask unlisted   2,960 for the same questions; at most 144 more for each further level; 16,744 for 100 nodes in one
 *                  chain
 *   null counts    1,088
 *   decode           548
 *   encode           384
 *   insert           352
 *   undo             320
 *   logged fill      288
 *   substitute       256
 *
 * LINKING
 *
 * `cc host.c libplotask.a`. The library is code for Linux on x86-64-v2, that is x86-64 with SSE4.2 and POPCNT. It needs
 * memcpy and memset. In plotask's repository `make lib` puts libplotask.a, plotask.h and plotask.pc in target/lib.
 */
#ifndef PLOTASK_H
#define PLOTASK_H

#include <stddef.h>
#include <stdint.h>

#ifdef __cplusplus
extern "C" {
#endif

/* Limits. */
enum {
    PLOTASK_WORDS = 4096,           /* words in use of a plot, at most */
    PLOTASK_CELLS = 3510,           /* cells of a plot, at most: 4,096 words in rows of at most six columns */
    PLOTASK_LIST_WORDS = 3810,      /* words that a working list needs, at most: 3,510 cells and 300 inked terms; of 100
                                       nodes at most 50 have no child, and each of these has at most six terms */
    PLOTASK_RELATIONS = 8,          /* sheets, at most; at least 1 */
    PLOTASK_COLUMNS = 6,            /* columns of a sheet, at most; at least 1 */
    PLOTASK_MARKS = 200,            /* marks are numbered 1 to 200; also the words of a census */
    PLOTASK_CARD_BYTES = 11713,     /* bytes that encode writes, at most: 8 sheets, 4,096 words with 3,510 cells */
    PLOTASK_NODES = 100,            /* nodes of a question, at most; at least 1 */
    PLOTASK_NODE_WORDS = 8,         /* words of a node */
    PLOTASK_QUERY_WORDS = 800,      /* words of a question, at most */
    PLOTASK_CANDIDATE = 6,          /* cells of a candidate row, at most */
    PLOTASK_ENTRY_WORDS = 3512,     /* words of a log's entry, at most: 3,510 places, the mark and the number */
    PLOTASK_VARIABLES = 16,         /* variables are numbered 0 to 15 */
    PLOTASK_HEADER_WORDS = 18,      /* words of a header, exactly */
    PLOTASK_CONSTANTS = 1000000,    /* inked values are the numbers below this one */
    PLOTASK_FIRST_MARK = 1000001,   /* mark 1 as a cell; 1,000,000 itself is no cell */
    PLOTASK_LAST_MARK = 1000200,    /* mark 200 as a cell */
    PLOTASK_VARIABLE_BASE = 2000000 /* variable 0 as a term */
};

/* A number as a word. */
#ifdef __cplusplus
#define PLOTASK_WORD(n) static_cast<uint32_t>(n)
#else
#define PLOTASK_WORD(n) ((uint32_t)(n))
#endif

/* Mark m, 1 to 200, as a cell; variable v, 0 to 15, as a term. */
#define PLOTASK_MARK(m)     (PLOTASK_WORD(PLOTASK_CONSTANTS) + PLOTASK_WORD(m))
#define PLOTASK_VARIABLE(v) (PLOTASK_WORD(PLOTASK_VARIABLE_BASE) + PLOTASK_WORD(v))

/* Verdicts, in their order. */
enum plotask_truth {
    PLOTASK_FALSE = 0,   /* false, however the marks are filled */
    PLOTASK_UNKNOWN = 1, /* the rules cannot tell; it may still be true, or false, however the marks are filled */
    PLOTASK_TRUE = 2     /* true, however the marks are filled */
};

/* What a call returns. 10 to 29 are about what was given, 41 to 49 about the plot, the room, the allowance, the log. */
enum plotask_refusal {
    PLOTASK_DONE = 0,                    /* accepted */
    PLOTASK_INPUT_TOO_LONG = 10,         /* the program's input is over 16,384 bytes; no call returns this */
    PLOTASK_CUT_SHORT = 11,              /* the card ends too soon */
    PLOTASK_BAD_RELATION_COUNT = 12,     /* the card's number of sheets is not 1 to 8 */
    PLOTASK_BAD_ARITY = 13,              /* a column count of the card is not 1 to 6 */
    PLOTASK_NO_SUCH_RELATION = 14,       /* a row names a sheet that the header lacks */
    PLOTASK_BIT_BEYOND_ARITY = 15,       /* a bit of the card is set for a column that the sheet lacks */
    PLOTASK_NOT_A_CELL = 16,             /* a field of the card, or a given number, is not a cell */
    PLOTASK_NULLS_EXHAUSTED = 17,        /* a blank of the card would need a mark above 200 */
    PLOTASK_BYTES_LEFT_OVER = 18,        /* bytes follow the card's last row */
    PLOTASK_BAD_QUERY_LENGTH = 21,       /* the question's number of words is not 8 to 800, or not a multiple of 8 */
    PLOTASK_BAD_NODE = 22,               /* a kind not 1 to 7, an unused word not 0, or a number that is no term */
    PLOTASK_BAD_CHILD = 23,              /* a child not above its parent, no node, or named twice; or an unnamed node */
    PLOTASK_UNBOUND_VARIABLE = 24,       /* a quantifier's variable above 15, or a variable that nothing binds */
    PLOTASK_NO_SUCH_QUERY_RELATION = 25, /* the question names a sheet that the header lacks */
    PLOTASK_BAD_CANDIDATE = 26,          /* the candidate has more than 6 cells, or a number that is not a cell */
    PLOTASK_WRONG_ROW_LENGTH = 27,       /* the row's number of cells is not the sheet's number of columns */
    PLOTASK_NO_SUCH_NULL = 29,           /* the mark to fill is not 1 to 200 */
    PLOTASK_UNSOUND = 41,                /* the plot is not sound, or the header is not of PLOTASK_HEADER_WORDS words */
    PLOTASK_NO_ROOM = 42,                /* the words needed exceed 4,096 or the slice */
    PLOTASK_NULL_ABSENT = 43,            /* no cell holds the mark to fill */
    PLOTASK_OUTPUT_TOO_SHORT = 44,       /* the output is shorter than the card, or than the census's 200 words */
    PLOTASK_BUFFER_TOO_SHORT = 45,       /* the working list is shorter than the plot's cells and the inked terms */
    PLOTASK_BUDGET_SPENT = 46,           /* the question's looks exceed the allowance */
    PLOTASK_LOG_TOO_SHORT = 47,          /* the log has no room for the entry of this fill */
    PLOTASK_LOG_EMPTY = 48,              /* no word of the log is in use: there is no fill to take back */
    PLOTASK_BAD_LOG = 49                 /* the words in use of the log do not end with an entry for this plot */
};

/* The kind of a question's node is its first word; the next words are named here. */
enum plotask_kind {
    PLOTASK_STANDS = 1, /* row stands in sheet: sheet, then a term for each of its columns */
    PLOTASK_EQUAL = 2,  /* equal: two terms */
    PLOTASK_NOT = 3,    /* not: child */
    PLOTASK_AND = 4,    /* and: left child, right child */
    PLOTASK_OR = 5,     /* or: left child, right child */
    PLOTASK_SOME = 6,   /* some value of the range: variable number 0 to 15 (not PLOTASK_VARIABLE), child */
    PLOTASK_EVERY = 7   /* every value of the range: variable number 0 to 15 (not PLOTASK_VARIABLE), child */
};

/*
 * The header (the plot's head). To start an empty plot without a card, set relations and as many arities, and
 * everything else to 0. After that, only decode and insert need to write it.
 *
 * A host that writes used itself keeps counts right too. One that was compiled for a header without counts, which is
 * shorter, is refused with 41 by every call: compile it again.
 */
struct plotask_header {
    uint32_t relations;                  /* number of sheets, 1 to 8 */
    uint32_t arities[PLOTASK_RELATIONS]; /* columns of each sheet, 1 to 6; 0 for a sheet that does not exist */
    uint32_t used;                       /* words in use, at most 4,096 and at most the plot's length */
    uint32_t counts[PLOTASK_RELATIONS];  /* rows of each sheet; 0 for a sheet that does not exist */
};

#ifdef __cplusplus
static_assert(sizeof(struct plotask_header) == 4 * PLOTASK_HEADER_WORDS, "a header has no padding");
#elif defined __STDC_VERSION__ && __STDC_VERSION__ >= 201112L
_Static_assert(sizeof(struct plotask_header) == 4 * PLOTASK_HEADER_WORDS, "a header has no padding");
#endif

/* A header as the words that a call takes. */
static inline uint32_t *plotask_header_words(struct plotask_header *header)
{
#ifdef __cplusplus
    return reinterpret_cast<uint32_t *>(header);
#else
    return (uint32_t *)(void *)header;
#endif
}

static inline const uint32_t *plotask_const_header_words(const struct plotask_header *header)
{
#ifdef __cplusplus
    return reinterpret_cast<const uint32_t *>(header);
#else
    return (const uint32_t *)(const void *)header;
#endif
}

/* Both arguments at once, words and length: plotask_insert(PLOTASK_HEADER(&header), plot, ...). */
#define PLOTASK_HEADER(header)       plotask_header_words(header), PLOTASK_HEADER_WORDS
#define PLOTASK_CONST_HEADER(header) plotask_const_header_words(header), PLOTASK_HEADER_WORDS

/*
 * Reading a card (decode): a card's bytes become a plot, from its first word. What header and plot held before is not
 * read.
 *
 * A card, high byte first: the number of sheets (1 byte), the columns of each (1 byte each), the number of rows (2
 * bytes), then the rows: the sheet (1 byte), a bit map (1 byte; bit 0, worth 1, is column 0), and 3 bytes with a cell
 * for each column whose bit is set, in column order. A column whose bit is not set is blank: it gets a mark of its own.
 * With M the highest mark written anywhere in the card (0 if none), the blanks get the marks M + 1, M + 2 and so on, in
 * card order. Two sheets of one column, with the row (201) in sheet 0 and a blank in sheet 1:
 *
 *   2, 1, 1,  0, 2,  0, 1, 0, 0, 201,  1, 0
 *
 *   card, card_bytes      the card; any length
 *   header, header_words  PLOTASK_HEADER(&header)
 *   plot, plot_words      room for the rows; 4,096 words are enough for every card that is accepted
 *   log_used              gets 0, the words in use of a fresh log; what it held before does not matter. A host
 *                         without a log passes any size_t
 *
 * Writes: the header, the first header.used words of the plot, and log_used.
 * Refuses: 41 (header_words is not PLOTASK_HEADER_WORDS); then the card byte by byte: 11 if a byte is missing, else the
 * rule of that byte or field, which is 12 (sheets), 13 (columns), 14 (a row's sheet), 15 (bit map), 16 (cell); then 18,
 * 17, 42.
 */
uint32_t plotask_decode(const uint8_t *card, size_t card_bytes, uint32_t *header, size_t header_words, uint32_t *plot,
                        size_t plot_words, size_t *log_used);

/*
 * Entering a row (insert): the row is appended to the words in use. This is not a fill: a verdict may change by it.
 *
 *   header, header_words  PLOTASK_HEADER(&header)
 *   plot, plot_words      the plot, with room for the row after its words in use
 *   relation              the row's sheet, counted from 0
 *   cells, cell_count     its cells, as many as the sheet has columns: inked values, or PLOTASK_MARK(m)
 *
 * Writes: 1 + cell_count words of the plot from index header.used, header.used, which grows by as many, and the sheet's
 * count in header.counts, which grows by 1.
 * Refuses: 41, 14, 27, 16, 42.
 */
uint32_t plotask_insert(uint32_t *header, size_t header_words, uint32_t *plot, size_t plot_words, uint32_t relation,
                        const uint32_t *cells, size_t cell_count);

/*
 * A fill (substitute): every cell of the plot that holds a mark gets another cell. The candidate is the host's: if it
 * holds the mark, the host replaces it there as well. Then a verdict that was true or false stays so, an unknown one
 * may be settled, and the looks do not rise. The same is true of a mark that only the candidate holds, which the host
 * fills alone: here it is refused with 43. This fill is in no log: plotask_undo does not take it back.
 *
 *   header, header_words  PLOTASK_CONST_HEADER(&header) or PLOTASK_HEADER(&header)
 *   plot, plot_words      the plot
 *   mark                  the number of the mark, 1 to 200 (the number m, not the cell PLOTASK_MARK(m))
 *   cell                  what replaces it: an inked value, another mark PLOTASK_MARK(k), or the mark itself (then
 *                         nothing changes)
 *   count                 gets the number of cells that held the mark, at least 1
 *
 * Writes: the cells that held the mark, and count.
 * Refuses: 41, 29, 16, 43.
 */
uint32_t plotask_substitute(const uint32_t *header, size_t header_words, uint32_t *plot, size_t plot_words,
                            uint32_t mark, uint32_t cell, uint32_t *count);

/*
 * A fill that can be taken back (logged fill): as plotask_substitute, and its cells are noted in a log (THE LOG).
 *
 *   header, header_words  PLOTASK_CONST_HEADER(&header) or PLOTASK_HEADER(&header)
 *   plot, plot_words      the plot
 *   log, log_words        the log, lent to be written; it needs a word for each cell that holds the mark, and two, from
 *                         index *log_used on
 *   log_used              the words in use of the log, any number; grows by count + 2
 *   mark                  the number of the mark, 1 to 200 (the number m, not the cell PLOTASK_MARK(m))
 *   cell                  what replaces it: an inked value, another mark PLOTASK_MARK(k), or the mark itself (then the
 *                         plot does not change, but the fill is logged all the same)
 *   count                 gets the number of cells that held the mark, at least 1
 *
 * Writes: the cells that held the mark, count + 2 words of the log from index *log_used, log_used, and count.
 * Refuses: 41, 29, 16, 43, 47 (the words in use and those of the entry exceed log_words).
 */
uint32_t plotask_substitute_logged(const uint32_t *header, size_t header_words, uint32_t *plot, size_t plot_words,
                                   uint32_t *log, size_t log_words, size_t *log_used, uint32_t mark, uint32_t cell,
                                   uint32_t *count);

/*
 * Taking a fill back (undo): the cells that the log's last entry names get its mark again, whatever they hold now, and
 * the entry is no longer in use.
 *
 *   header, header_words  PLOTASK_CONST_HEADER(&header) or PLOTASK_HEADER(&header)
 *   plot, plot_words      the plot
 *   log, log_words        the log, which is only read
 *   log_used              the words in use of the log, any number; falls by count + 2
 *   count                 gets the number of cells that the entry names
 *
 * Writes: the cells that the entry names, log_used, and count.
 * Refuses: 41; 48 (*log_used is 0); 49 if *log_used exceeds log_words, or is less than the last entry has words (2, and
 * as many more as the last word in use says), or the entry's mark is not 1 to 200, or a place in it is not that of a
 * cell: it is the word of a row's sheet number, or at or past the end of the plot's words in use. There is no other
 * test: an entry without places, or with places that are repeated or do not rise, is taken back too.
 */
uint32_t plotask_undo(const uint32_t *header, size_t header_words, uint32_t *plot, size_t plot_words,
                      const uint32_t *log, size_t log_words, size_t *log_used, uint32_t *count);

/*
 * The census of marks (null counts): how many cells hold each mark.
 *
 *   header, header_words  PLOTASK_CONST_HEADER(&header) or PLOTASK_HEADER(&header)
 *   plot, plot_words      the plot
 *   counts, counts_words  at least 200 words; counts[m - 1] gets the number of cells of the plot that hold mark m; if
 *                         that is 0, the mark is free for a new row, unless a candidate holds it
 *   count                 gets 200
 *
 * Writes: the first 200 words of counts, and count.
 * Refuses: 41, 44.
 */
uint32_t plotask_null_counts(const uint32_t *header, size_t header_words, const uint32_t *plot, size_t plot_words,
                             uint32_t *counts, size_t counts_words, uint32_t *count);

/*
 * Writing a card (encode): the plot as a card, with every column written. Read again, it gives the same header and
 * words.
 *
 *   header, header_words  PLOTASK_CONST_HEADER(&header) or PLOTASK_HEADER(&header)
 *   plot, plot_words      the plot
 *   card, card_bytes      room for the card; PLOTASK_CARD_BYTES are enough for every plot
 *   count                 gets the number of bytes written
 *
 * Writes: the first count bytes of the card, and count.
 * Refuses: 41, 44.
 */
uint32_t plotask_encode(const uint32_t *header, size_t header_words, const uint32_t *plot, size_t plot_words,
                        uint8_t *card, size_t card_bytes, uint32_t *count);

/*
 * A question (ask): its verdict about a candidate row, and the looks that it took.
 *
 * A question is 1 to 100 nodes of 8 words; node 0 is the top. A node's first word is its kind (enum plotask_kind), the
 * next ones are what that enum names, and the rest are 0. A child is the number of a node, greater than its parent's;
 * each node but 0 is the child of exactly one. A term is an inked value or PLOTASK_VARIABLE(v), with v from 0 to 15,
 * and no other number. "Row stands" needs a term for each column: a word left at 0 is an inked value too. Variables 0
 * to k - 1 are the candidate's k cells; any other must be bound by a "some" or "every" above the term. If several bind
 * the same variable, the nearest counts, also before the candidate's cell. For "201 stands in sheet 0 and not in sheet
 * 1", asked of the candidate (201):
 *
 *   { PLOTASK_AND, 1, 2 }, { PLOTASK_STANDS, 0, PLOTASK_VARIABLE(0) },
 *   { PLOTASK_NOT, 3 }, { PLOTASK_STANDS, 1, PLOTASK_VARIABLE(0) }
 *
 * as uint32_t question[4][8], passed as (&question[0][0], 4 * PLOTASK_NODE_WORDS). For "201 stands with some value in
 * sheet 2", which has two columns:
 *
 *   { PLOTASK_SOME, 5, 1 }, { PLOTASK_STANDS, 2, PLOTASK_VARIABLE(0), PLOTASK_VARIABLE(5) }
 *
 * Range. "Some" and "every" range over the plot's values in their order, and then over the question's inked terms in
 * the order of its words, each value once. A term counts even if its node is never asked, and the order is that of the
 * nodes' numbers, not of the tree. The numbers of sheets, variables and children are no terms, and the candidate's
 * cells are not part of the range. In a plot whose only row is (5), this question ranges over 5, 3 and 7, in this
 * order, although 7 stands in the left child of "or":
 *
 *   { PLOTASK_SOME, 0, 1 }, { PLOTASK_OR, 3, 2 }, { PLOTASK_EQUAL, 5, 3 }, { PLOTASK_EQUAL, PLOTASK_VARIABLE(0), 7 }
 *
 * Verdicts. "Row stands" is true if the very row is in the sheet, false if no row of the sheet can be made equal to it
 * by giving each mark one value, else unknown. "Equal" is true for the same cell, false for two different inked values,
 * else unknown. "Not" swaps true and false. "And" takes the lower of two, "or" the higher, in the order false, unknown,
 * true. "Some" is the highest and "every" the lowest over the range in its order; over no value, "some" is false and
 * "every" true.
 *
 * What a verdict says. To ink the marks is to give each mark of plot and candidate an inked value, the same one
 * wherever it stands. A question whose verdict is true holds in every way to ink them, one whose verdict is false in
 * none. A question is plain if its nodes are "row stands", "equal", "and", "or" and "some" alone. If a plain question
 * that holds in every way gets a verdict, that is true; so if it is unknown, some way to ink the marks makes it false.
 * That some way makes it true does not follow: "variable 0 is 1 and variable 0 is 2" of the candidate (mark 1) is
 * unknown, and holds in no way. A question that is not plain may be unknown although it holds in every way, as "some x
 * is in the sheet, and is 0 or not 0" of the one row (mark 1).
 *
 * Looks. "Equal" costs 1. "Row stands" costs 1 plus the rows of that sheet, in the plot's order, up to and including
 * the first that is the very row, or all of them if none is. A row that is not the very row, but can be made equal to
 * it, does not end the count. The other kinds cost what their children cost. The right child of "and" is not asked if
 * the left is false, nor that of "or" if the left is true; "some" stops after the first true, "every" after the first
 * false.
 *
 * Looks do not measure time: "row stands" also passes over the rows of other sheets that come before the row at which
 * its count ends. The time that a question may take grows with its looks and with the words in use, at most with their
 * product; for plotask_ask_unlisted this holds of the time besides its pass over plot and question. What a look takes
 * is measured in docs/BENCHMARKS.md.
 *
 *   header, header_words        PLOTASK_CONST_HEADER(&header) or PLOTASK_HEADER(&header)
 *   plot, plot_words            the plot
 *   query, query_words          the question, 8 words for each node
 *   candidate, candidate_cells  the candidate row, 0 to 6 cells; it may hold values and marks that the plot lacks
 *   list, list_words            the working list: a word for each cell of the plot and for each inked term of the
 *                               question, each time it occurs; PLOTASK_LIST_WORDS are always enough. Its content is not
 *                               read (plotask_ask_unlisted needs no list)
 *   budget                      the allowance: the most looks that the question may take, 0 to 4,294,967,295
 *   truth                       gets the verdict (enum plotask_truth)
 *   cost                        gets the looks
 *
 * Writes: the range, in its order, at the start of the list (the number of its values is not returned), also if it is
 * refused with 46; and, if it is accepted, truth and cost.
 * Refuses: 41, 21, 26; then the nodes by number, each 23 (a node above 0 that no earlier node names), 22 (kind), 25, 22
 * (words that must be 0), 24 (quantifier's variable), 23 (children, left first), then its terms from left to right,
 * each 22, 24; then 45, 46.
 */
uint32_t plotask_ask(const uint32_t *header, size_t header_words, const uint32_t *plot, size_t plot_words,
                     const uint32_t *query, size_t query_words, const uint32_t *candidate, size_t candidate_cells,
                     uint32_t *list, size_t list_words, uint32_t budget, uint32_t *truth, uint32_t *cost);

/*
 * A question with no working list (ask unlisted): for a host that has no memory to lend for one. It answers as
 * plotask_ask does with a list that is long enough: the same verdict, the same looks, and the same refusal, so that a
 * host may change from one to the other between any two questions. The list is the only difference: there is none to
 * be too short, so 45 never occurs, and none that gets the range.
 *
 * It finds the range in plot and question themselves, by walking the rows and then the question's terms, and passing
 * over any cell or inked term that occurred earlier in either.
 *
 * Time. A question without "some" and "every" needs no range, and there is no search for it. For any other, one pass
 * over plot and question finds where each value first occurs. Each time a "some" or "every" is asked, it goes from one
 * value to the next and steps over the words between them, up to 32 at a time: at most one step for each word in use
 * and each word of the question, and at most 154 steps if the range has one value. The pass is quick for up to some
 * hundreds of different values. In the worst case, with thousands of them, each cell or term is searched for among the
 * words before it: that takes at most as many tests of a word as cells and terms times the words of plot and question.
 *
 * Measured on full plots (docs/BENCHMARKS.md), beside plotask_ask: a question without "some" and "every" takes 0.27 to
 * 0.42 of the time. With them, and with up to 205 different values, it takes 1.06 to 2.0 times as long, or less than
 * that if many values share a bucket of the library's hash. With 3,510 different values the pass alone takes about 2
 * milliseconds, where plotask_ask takes 26 microseconds for a question of one "every".
 *
 * Which to choose: this call if there is no memory for the list, and for questions without "some" and "every", since
 * plotask_ask lists the range for these too; plotask_ask if there is memory and the plot may have thousands of
 * different values.
 *
 *   header, header_words        PLOTASK_CONST_HEADER(&header) or PLOTASK_HEADER(&header)
 *   plot, plot_words            the plot
 *   query, query_words          the question, 8 words for each node, as for plotask_ask
 *   candidate, candidate_cells  the candidate row, 0 to 6 cells; it may hold values and marks that the plot lacks
 *   budget                      the allowance: the most looks that the question may take, 0 to 4,294,967,295
 *   truth                       gets the verdict (enum plotask_truth)
 *   cost                        gets the looks
 *
 * Writes: truth and cost, if it is accepted; otherwise nothing.
 * Refuses: 41, 21, 26; then the nodes by number, as plotask_ask; then 46.
 */
uint32_t plotask_ask_unlisted(const uint32_t *header, size_t header_words, const uint32_t *plot, size_t plot_words,
                              const uint32_t *query, size_t query_words, const uint32_t *candidate,
                              size_t candidate_cells, uint32_t budget, uint32_t *truth, uint32_t *cost);

/*
 * EMPTY SLICES
 *
 * The functions above are the library's own, whose slices never have a null pointer. So each call goes by a function
 * below, which puts another address in place of the pointer of an empty slice: that of a word or byte which nobody
 * reads or writes. A call's name stands for this function from here on, so a host writes plotask_ask(...) and
 * &plotask_ask as if there were only one. A host in another language, which calls the library's own functions by their
 * symbols, passes such an address itself.
 */
static uint32_t plotask_no_word;
static uint8_t plotask_no_byte;

/* A slice as two arguments, pointer and length. */
#define PLOTASK_LENT(words, length)       (length) > 0 ? (words) : &plotask_no_word, (length)
#define PLOTASK_LENT_BYTES(bytes, length) (length) > 0 ? (bytes) : &plotask_no_byte, (length)

static inline uint32_t plotask_decode_from_c(const uint8_t *card, size_t card_bytes, uint32_t *header,
                                             size_t header_words, uint32_t *plot, size_t plot_words, size_t *log_used)
{
    return plotask_decode(PLOTASK_LENT_BYTES(card, card_bytes), PLOTASK_LENT(header, header_words),
                          PLOTASK_LENT(plot, plot_words), log_used);
}

static inline uint32_t plotask_insert_from_c(uint32_t *header, size_t header_words, uint32_t *plot, size_t plot_words,
                                             uint32_t relation, const uint32_t *cells, size_t cell_count)
{
    return plotask_insert(PLOTASK_LENT(header, header_words), PLOTASK_LENT(plot, plot_words), relation,
                          PLOTASK_LENT(cells, cell_count));
}

static inline uint32_t plotask_substitute_from_c(const uint32_t *header, size_t header_words, uint32_t *plot,
                                                 size_t plot_words, uint32_t mark, uint32_t cell, uint32_t *count)
{
    return plotask_substitute(PLOTASK_LENT(header, header_words), PLOTASK_LENT(plot, plot_words), mark, cell, count);
}

static inline uint32_t plotask_substitute_logged_from_c(const uint32_t *header, size_t header_words, uint32_t *plot,
                                                        size_t plot_words, uint32_t *log, size_t log_words,
                                                        size_t *log_used, uint32_t mark, uint32_t cell, uint32_t *count)
{
    return plotask_substitute_logged(PLOTASK_LENT(header, header_words), PLOTASK_LENT(plot, plot_words),
                                     PLOTASK_LENT(log, log_words), log_used, mark, cell, count);
}

static inline uint32_t plotask_undo_from_c(const uint32_t *header, size_t header_words, uint32_t *plot,
                                           size_t plot_words, const uint32_t *log, size_t log_words, size_t *log_used,
                                           uint32_t *count)
{
    return plotask_undo(PLOTASK_LENT(header, header_words), PLOTASK_LENT(plot, plot_words),
                        PLOTASK_LENT(log, log_words), log_used, count);
}

static inline uint32_t plotask_null_counts_from_c(const uint32_t *header, size_t header_words, const uint32_t *plot,
                                                  size_t plot_words, uint32_t *counts, size_t counts_words,
                                                  uint32_t *count)
{
    return plotask_null_counts(PLOTASK_LENT(header, header_words), PLOTASK_LENT(plot, plot_words),
                               PLOTASK_LENT(counts, counts_words), count);
}

static inline uint32_t plotask_encode_from_c(const uint32_t *header, size_t header_words, const uint32_t *plot,
                                             size_t plot_words, uint8_t *card, size_t card_bytes, uint32_t *count)
{
    return plotask_encode(PLOTASK_LENT(header, header_words), PLOTASK_LENT(plot, plot_words),
                          PLOTASK_LENT_BYTES(card, card_bytes), count);
}

static inline uint32_t plotask_ask_from_c(const uint32_t *header, size_t header_words, const uint32_t *plot,
                                          size_t plot_words, const uint32_t *query, size_t query_words,
                                          const uint32_t *candidate, size_t candidate_cells, uint32_t *list,
                                          size_t list_words, uint32_t budget, uint32_t *truth, uint32_t *cost)
{
    return plotask_ask(PLOTASK_LENT(header, header_words), PLOTASK_LENT(plot, plot_words),
                       PLOTASK_LENT(query, query_words), PLOTASK_LENT(candidate, candidate_cells),
                       PLOTASK_LENT(list, list_words), budget, truth, cost);
}

static inline uint32_t plotask_ask_unlisted_from_c(const uint32_t *header, size_t header_words, const uint32_t *plot,
                                                   size_t plot_words, const uint32_t *query, size_t query_words,
                                                   const uint32_t *candidate, size_t candidate_cells, uint32_t budget,
                                                   uint32_t *truth, uint32_t *cost)
{
    return plotask_ask_unlisted(PLOTASK_LENT(header, header_words), PLOTASK_LENT(plot, plot_words),
                                PLOTASK_LENT(query, query_words), PLOTASK_LENT(candidate, candidate_cells), budget,
                                truth, cost);
}

#undef PLOTASK_LENT
#undef PLOTASK_LENT_BYTES

#define plotask_decode            plotask_decode_from_c
#define plotask_insert            plotask_insert_from_c
#define plotask_substitute        plotask_substitute_from_c
#define plotask_substitute_logged plotask_substitute_logged_from_c
#define plotask_undo              plotask_undo_from_c
#define plotask_null_counts       plotask_null_counts_from_c
#define plotask_encode            plotask_encode_from_c
#define plotask_ask               plotask_ask_from_c
#define plotask_ask_unlisted      plotask_ask_unlisted_from_c

#ifdef __cplusplus
}
#endif

#endif
