/* What the lines of a run have met. What was never met has not been tested, so each of these has to be. */
#ifndef DESK_TALLY_H
#define DESK_TALLY_H

#include <stdbool.h>
#include <stddef.h>
#include <stdint.h>

/* The commands in the order of the desk's list, and lines that are no command's: empty ones and unknown words. */
#define EVERY_COMMAND(COMMAND) \
    COMMAND(SHEET, "sheet")    \
    COMMAND(ENTER, "enter")    \
    COMMAND(FILL, "fill")      \
    COMMAND(TAKE, "take")      \
    COMMAND(CENSUS, "census")  \
    COMMAND(SHOW, "show")      \
    COMMAND(NAME, "question")  \
    COMMAND(ASK, "ask")        \
    COMMAND(LIST, "questions") \
    COMMAND(FORGET, "forget")  \
    COMMAND(LOAD, "load")      \
    COMMAND(SAVE, "save")      \
    COMMAND(NEW, "new")        \
    COMMAND(HELP, "help")      \
    COMMAND(QUIT, "quit")

enum typed_command {
#define COMMAND(name, text) TYPED_##name,
    EVERY_COMMAND(COMMAND)
#undef COMMAND
        TYPED_OTHER,
    TYPED_COMMANDS
};

/* The command that a line's first word is, or the name of one of the desk's sheets, which is TYPED_ENTER. */
enum typed_command command_of(const char *bytes, size_t length);

/* Each case, with what the table prints for it: of random lines first, then of conversations. */
#define EVERY_CASE(CASE)                                                            \
    CASE(FULL_LINE, "a line of 4,095 bytes")                                        \
    CASE(LONG_LINE, "a line of 4,096 bytes or more")                                \
    CASE(CONTROL_BYTE, "a line with a control byte")                                \
    CASE(HIGH_BYTE, "a line with a byte above 127")                                 \
    CASE(SETTLED_AT_RANDOM, "a random fill that settles a question")                \
    CASE(BLANK_AT_RANDOM, "a random row with a blank")                              \
    CASE(ASKED_AT_FILL, "a random fill with a question asked")                      \
    CASE(FILLED_AND_BACK, "a random fill is made and taken back")                   \
    CASE(IN_WORDS, "asked in words")                                                \
    CASE(BY_NAME, "asked by name")                                                  \
    CASE(LISTED, "asked with a working list")                                       \
    CASE(UNLISTED, "asked without a working list")                                  \
    CASE(ANSWERED_TRUE, "true")                                                     \
    CASE(ANSWERED_FALSE, "false")                                                   \
    CASE(PLAIN_UNKNOWN, "unknown of a plain question")                              \
    CASE(OTHER_UNKNOWN, "unknown of a question that is not plain")                  \
    CASE(ALLOWANCE_TAKEN, "the looks are the allowance")                            \
    CASE(HUNDRED_NODES, "a question of 100 nodes is answered")                      \
    CASE(VALUE_NAMED, "some or every, and a value that only the question names")    \
    CASE(NODE_101, "21 in words, at node 101")                                      \
    CASE(NODE_101_NAMED, "21 of a question to be named")                            \
    CASE(WORDS_22, "22 in words")                                                   \
    CASE(WORDS_24, "24 in words")                                                   \
    CASE(WORDS_25, "25 in words")                                                   \
    CASE(WORDS_46, "46 in words")                                                   \
    CASE(NAMING_22, "22 of a question to be named")                                 \
    CASE(NAMING_24, "24 of a question to be named")                                 \
    CASE(NAMING_25, "25 of a question to be named")                                 \
    CASE(NAME_24, "24 by name: the row is too short")                               \
    CASE(NAME_46, "46 by name")                                                     \
    CASE(ROW_26, "26 for a cell of the row")                                        \
    CASE(ROW_OF_SEVEN, "26 for the seventh cell of the row")                        \
    CASE(NO_VARIABLE_LEFT, "24 for a name that gets no variable")                   \
    CASE(NAMED_AGAIN, "a name is given to another question")                        \
    CASE(PLAIN_ANEW, "a name goes to a plain question, from one that is not")       \
    CASE(OTHER_ANEW, "a name goes from a plain question to one that is not")        \
    CASE(PLAIN_NAMED, "a question with a name is listed as plain")                  \
    CASE(OTHER_NAMED, "a question with a name is listed, and is not plain")         \
    CASE(PLAIN_ASKED, "a question that was asked is listed as plain")               \
    CASE(OTHER_ASKED, "a question that was asked is listed, and is not plain")      \
    CASE(NAMED_BEFORE, "a question that has a name is asked of another row")        \
    CASE(ASKED_AGAIN, "the same question is asked of the same row")                 \
    CASE(OLDEST_DROPPED, "the oldest of 32 questions is no longer asked")           \
    CASE(FILLED, "a fill that settles nothing")                                     \
    CASE(SETTLED_BY_FILL, "a fill that settles a question")                         \
    CASE(FEWER_LOOKS, "a fill after which a question takes fewer looks")            \
    CASE(WITHIN_AGAIN, "a fill after which a question is within its allowance")     \
    CASE(ROW_FILLED, "a fill that changes a row asked about")                       \
    CASE(FILLED_BY_ITSELF, "a mark is filled with itself")                          \
    CASE(FILL_43, "43 for a mark that stands nowhere")                              \
    CASE(FILL_47, "47 for a full log")                                              \
    CASE(TAKEN_BACK, "a fill is taken back")                                        \
    CASE(CHANGED_BY_TAKE_BACK, "a fill is taken back, and a verdict changes")       \
    CASE(ROW_TAKEN_BACK, "a fill is taken back that changed a row asked about")     \
    CASE(ROW_STAYS, "a fill is taken back, and a row asked about since then stays") \
    CASE(BECAME_THE_SAME, "a fill is taken back, and two questions are the same")   \
    CASE(TAKE_48, "48 for no fill to take back")                                    \
    CASE(ROW_ENTERED, "a row is entered")                                           \
    CASE(CHANGED_BY_ROW, "a row is entered, and a verdict changes")                 \
    CASE(SPENT_AFTER_CHANGE, "46 after a row or a fill taken back")                 \
    CASE(BLANK_MARKED, "a blank gets a mark")                                       \
    CASE(BLANK_ABOVE_FILL, "a blank gets a mark above one that is filled")          \
    CASE(BLANK_ABOVE_ASKED, "a blank gets a mark above one of a row asked about")   \
    CASE(BLANK_17, "17 for a blank")                                                \
    CASE(ROW_42, "42 for a row")                                                    \
    CASE(CARD_READ_AGAIN, "a card is written and read again")

enum met_case {
#define CASE(name, text) MET_##name,
    EVERY_CASE(CASE)
#undef CASE
        MET_CASES
};

void meet(enum met_case met);

/* Counts a line of a command, accepted (0), or refused with a number or, if the desk could not do it, with NOT_DONE. */
enum { NOT_DONE = 1, NUMBERS = 64 };
void count_line(enum typed_command command, uint32_t number);

/* Prints the counts, and checks that none of them is 0. */
void check_tally(void);

#endif
