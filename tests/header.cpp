// The examples that plotask.h gives, and headers that it rules out, through the library, from C++.
#include "plotask.h"
#include "support/checks.h"

#include <cstdio>
#include <cstring>

namespace
{

void expect(bool holds, const char *what)
{
    if (!check(holds))
        std::printf("plotask.h: %s\n", what);
}

struct Answer {
    uint32_t refusal, truth, cost;
};

// Asks with a working list and without one, which has to be the same.
Answer ask(const plotask_header &header, const uint32_t *plot, const uint32_t *query, size_t query_words)
{
    const uint32_t candidate[] = {201};
    uint32_t list[4];
    Answer answer = {0, 9, 9}, unlisted = {0, 9, 9};
    answer.refusal = plotask_ask(PLOTASK_CONST_HEADER(&header), plot, 4, query, query_words, candidate, 1, list, 4, 100,
                                 &answer.truth, &answer.cost);
    unlisted.refusal = plotask_ask_unlisted(PLOTASK_CONST_HEADER(&header), plot, 4, query, query_words, candidate, 1,
                                            100, &unlisted.truth, &unlisted.cost);
    expect(unlisted.refusal == answer.refusal && unlisted.truth == answer.truth && unlisted.cost == answer.cost,
           "the answer without a working list is another");
    return answer;
}

bool is(const Answer &answer, plotask_truth truth, uint32_t cost)
{
    return answer.refusal == PLOTASK_DONE && answer.truth == truth && answer.cost == cost;
}

// Whether the sheets have as many rows, and all others none.
bool counts_are(const plotask_header &header, uint32_t first, uint32_t second, uint32_t third)
{
    const uint32_t counts[PLOTASK_RELATIONS] = {first, second, third};
    return std::memcmp(header.counts, counts, sizeof counts) == 0;
}

// 201 stands in sheet 0, and a blank of sheet 1 may be 201 too.
void card_and_difference()
{
    const uint8_t card[] = {2, 1, 1, 0, 2, 0, 1, 0, 0, 201, 1, 0};
    const uint32_t question[4][PLOTASK_NODE_WORDS] = {{PLOTASK_AND, 1, 2},
                                                      {PLOTASK_STANDS, 0, PLOTASK_VARIABLE(0)},
                                                      {PLOTASK_NOT, 3},
                                                      {PLOTASK_STANDS, 1, PLOTASK_VARIABLE(0)}};
    plotask_header header = plotask_header();
    uint32_t plot[4] = {};
    uint32_t log[3] = {};
    size_t log_used = 9;
    uint32_t count = 0;

    expect(plotask_decode(card, sizeof card, PLOTASK_HEADER(&header), plot, 4, &log_used) == PLOTASK_DONE,
           "the card is not read");
    expect(log_used == 0, "the card's log is not fresh");
    expect(header.relations == 2 && header.arities[0] == 1 && header.arities[1] == 1 && header.used == 4,
           "the card's header");
    expect(counts_are(header, 1, 1, 0), "the card's row counts");
    expect(plot[0] == 0 && plot[1] == 201 && plot[2] == 1 && plot[3] == PLOTASK_MARK(1), "the card's rows");
    expect(is(ask(header, plot, &question[0][0], 4 * PLOTASK_NODE_WORDS), PLOTASK_UNKNOWN, 4),
           "the difference, with the mark");
    expect(plotask_substitute_logged(PLOTASK_CONST_HEADER(&header), plot, 4, log, 2, &log_used, 1, 202, &count) ==
               PLOTASK_LOG_TOO_SHORT,
           "the log of two words");
    expect(plotask_substitute_logged(PLOTASK_CONST_HEADER(&header), plot, 4, log, 3, &log_used, 1, 202, &count) ==
                   PLOTASK_DONE &&
               count == 1,
           "the logged fill");
    expect(log_used == 3 && log[0] == 3 && log[1] == 1 && log[2] == 1, "the log's entry");
    expect(is(ask(header, plot, &question[0][0], 4 * PLOTASK_NODE_WORDS), PLOTASK_TRUE, 4), "the difference, filled");
    count = 0;
    expect(plotask_undo(PLOTASK_CONST_HEADER(&header), plot, 4, log, 3, &log_used, &count) == PLOTASK_DONE &&
               count == 1,
           "the undo");
    expect(log_used == 0 && plot[3] == PLOTASK_MARK(1), "the mark after the undo");
    expect(is(ask(header, plot, &question[0][0], 4 * PLOTASK_NODE_WORDS), PLOTASK_UNKNOWN, 4),
           "the difference, taken back");
    expect(plotask_undo(PLOTASK_CONST_HEADER(&header), plot, 4, log, 3, &log_used, &count) == PLOTASK_LOG_EMPTY,
           "the undo of an empty log");
    log_used = 4;
    expect(plotask_undo(PLOTASK_CONST_HEADER(&header), plot, 4, log, 3, &log_used, &count) == PLOTASK_BAD_LOG,
           "the undo of words in use that the log lacks");
    expect(plotask_substitute(PLOTASK_CONST_HEADER(&header), plot, 4, 1, 202, &count) == PLOTASK_DONE && count == 1,
           "the fill");
    expect(is(ask(header, plot, &question[0][0], 4 * PLOTASK_NODE_WORDS), PLOTASK_TRUE, 4),
           "the difference, filled again");
    expect(counts_are(header, 1, 1, 0), "the row counts after fills and an undo");
}

// The row (201, 5) in sheet 2; the values are tried in the order 201, 5.
void some_value()
{
    const uint32_t question[2][PLOTASK_NODE_WORDS] = {{PLOTASK_SOME, 5, 1},
                                                      {PLOTASK_STANDS, 2, PLOTASK_VARIABLE(0), PLOTASK_VARIABLE(5)}};
    const uint32_t row[] = {201, 5};
    plotask_header header = plotask_header();
    uint32_t plot[4] = {};

    header.relations = 3;
    header.arities[0] = 1;
    header.arities[1] = 1;
    header.arities[2] = 2;
    expect(plotask_insert(PLOTASK_HEADER(&header), plot, 4, 2, row, 2) == PLOTASK_DONE && header.used == 3,
           "the row is not entered");
    expect(counts_are(header, 0, 0, 1), "the row counts after the row");
    expect(is(ask(header, plot, &question[0][0], 2 * PLOTASK_NODE_WORDS), PLOTASK_TRUE, 4), "some value");
}

// The row (5): the values are tried in the order 5, 3, 7. The list needs a word for the cell and one for each term.
void named_values()
{
    const uint32_t question[4][PLOTASK_NODE_WORDS] = {
        {PLOTASK_SOME, 0, 1}, {PLOTASK_OR, 3, 2}, {PLOTASK_EQUAL, 5, 3}, {PLOTASK_EQUAL, PLOTASK_VARIABLE(0), 7}};
    const uint32_t candidate[] = {0}, row[] = {5}, expected[] = {5, 3, 7, 9};
    plotask_header header = plotask_header();
    uint32_t plot[4] = {}, list[4] = {9, 9, 9, 9};
    Answer answer = {0, 9, 9};

    header.relations = 1;
    header.arities[0] = 1;
    expect(plotask_insert(PLOTASK_HEADER(&header), plot, 4, 0, row, 1) == PLOTASK_DONE, "the row (5) is not entered");
    expect(is(ask(header, plot, &question[0][0], 4 * PLOTASK_NODE_WORDS), PLOTASK_TRUE, 5), "a value in the question");
    answer.refusal = plotask_ask(PLOTASK_CONST_HEADER(&header), plot, 4, &question[0][0], 4 * PLOTASK_NODE_WORDS,
                                 candidate, 0, list, 3, 100, &answer.truth, &answer.cost);
    expect(answer.refusal == PLOTASK_BUFFER_TOO_SHORT && list[0] == 9, "a list of three words");
    answer.refusal = plotask_ask(PLOTASK_CONST_HEADER(&header), plot, 4, &question[0][0], 4 * PLOTASK_NODE_WORDS,
                                 candidate, 0, list, 4, 4, &answer.truth, &answer.cost);
    expect(answer.refusal == PLOTASK_BUDGET_SPENT && std::memcmp(list, expected, sizeof list) == 0,
           "the range in the list");
}

// All that a call may write.
struct Lent {
    uint32_t header[PLOTASK_HEADER_WORDS + 1], plot[6], log[6], list[PLOTASK_MARKS], count, truth, cost;
    uint8_t card[32];
    size_t log_used;
};

// The row (m1) in sheet 0 and (5) in sheet 1, with room for another, and a log whose only entry names m1's cell.
void make(Lent &lent)
{
    const uint32_t plot[] = {0, PLOTASK_MARK(1), 1, 5}, log[] = {1, 1, 1};
    plotask_header header = plotask_header();

    header.relations = 2;
    header.arities[0] = header.arities[1] = 1;
    header.used = 4;
    header.counts[0] = header.counts[1] = 1;
    std::memset(&lent, 0, sizeof lent);
    std::memcpy(lent.header, &header, sizeof header);
    std::memcpy(lent.plot, plot, sizeof plot);
    std::memcpy(lent.log, log, sizeof log);
    lent.log_used = 3;
}

enum { CALLS = 9 };

// Each call finds no fault in all else that it is lent.
uint32_t make_call(int call, Lent &lent, size_t header_words)
{
    const uint8_t card[] = {1, 1, 0, 1, 0, 0};
    const uint32_t question[PLOTASK_NODE_WORDS] = {PLOTASK_STANDS, 1, 5};
    const uint32_t cell = 5;

    switch (call) {
    case 0:
        return plotask_decode(card, sizeof card, lent.header, header_words, lent.plot, 6, &lent.log_used);
    case 1:
        return plotask_insert(lent.header, header_words, lent.plot, 6, 1, &cell, 1);
    case 2:
        return plotask_substitute(lent.header, header_words, lent.plot, 6, 1, 5, &lent.count);
    case 3:
        return plotask_substitute_logged(lent.header, header_words, lent.plot, 6, lent.log, 6, &lent.log_used, 1, 5,
                                         &lent.count);
    case 4:
        return plotask_undo(lent.header, header_words, lent.plot, 6, lent.log, 6, &lent.log_used, &lent.count);
    case 5:
        return plotask_null_counts(lent.header, header_words, lent.plot, 6, lent.list, PLOTASK_MARKS, &lent.count);
    case 6:
        return plotask_encode(lent.header, header_words, lent.plot, 6, lent.card, sizeof lent.card, &lent.count);
    case 7:
        return plotask_ask(lent.header, header_words, lent.plot, 6, question, PLOTASK_NODE_WORDS, &cell, 1, lent.list,
                           6, 100, &lent.truth, &lent.cost);
    default:
        return plotask_ask_unlisted(lent.header, header_words, lent.plot, 6, question, PLOTASK_NODE_WORDS, &cell, 1,
                                    100, &lent.truth, &lent.cost);
    }
}

// A header without its counts, one that lacks a word and one with a word more: 41 by every call, and nothing changes.
void header_lengths()
{
    const size_t wrong[] = {PLOTASK_HEADER_WORDS - PLOTASK_RELATIONS, PLOTASK_HEADER_WORDS - 1,
                            PLOTASK_HEADER_WORDS + 1};
    Lent before, lent;

    make(before);
    for (int call = 0; call < CALLS; call++) {
        for (size_t length : wrong) {
            std::memcpy(&lent, &before, sizeof lent);
            expect(make_call(call, lent, length) == PLOTASK_UNSOUND, "a header of another length");
            expect(std::memcmp(&lent, &before, sizeof lent) == 0, "what was lent with a header of another length");
        }
        std::memcpy(&lent, &before, sizeof lent);
        expect(make_call(call, lent, PLOTASK_HEADER_WORDS) == PLOTASK_DONE, "a header of the right length");
    }
}

} // namespace

int main()
{
    card_and_difference();
    some_value();
    named_values();
    header_lengths();
    return finish_checks();
}
