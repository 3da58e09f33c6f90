/* The limits of document 01. */
#ifndef LIMITS_H
#define LIMITS_H

enum {
    MOST_RELATIONS = 8,
    MOST_COLUMNS = 6,
    MOST_WORDS = 4096,
    CONSTANTS = 1000000, /* constants are the numbers below */
    NULLS = 200,         /* null n, from 1 on, is the cell CONSTANTS + n */
    NODE_WORDS = 8,
    MOST_NODES = 100,
    MOST_TERMS = MOST_NODES * MOST_COLUMNS, /* of a query; none has as many */
    VARIABLES = 16,
    FIRST_VARIABLE = 2000000, /* variable v is the term FIRST_VARIABLE + v */
    MOST_INPUT = 16384,
    LINE_BYTES = 32 /* room for the program's line, its line feed and an ending 0 */
};

#endif
