#include "parts.h"
#include "talk.h"

#include <string.h>

static void check_fill_refusals(void)
{
    static const char *const no_marks[] = {"fill ^m0 5",          "fill ^m201 5",
                                           "fill ^m4294967297 5", "fill ^m999999999999999999999999999999 5",
                                           "fill ^m0 1000000",    "fill ^m000 5"};
    static const char *const no_cells[] = {"fill m1 ^1000000",
                                           "fill m1 ^m0",
                                           "fill m1 ^m201",
                                           "fill m1 ^999999999999999999999999999999",
                                           "fill m1 ^m999999999999999999999999999999",
                                           "fill m2 ^1000000"};

    START("sheet hangs lamp", "hangs m1");
    for (size_t i = 0; i < COUNT_OF(no_marks); i++)
        refuses(no_marks[i], 29);
    for (size_t i = 0; i < COUNT_OF(no_cells); i++)
        refuses(no_cells[i], 16);
    refuses("fill ^m2 5", 43);
    refuses("fill ^m200 m1", 43);
    refuses("^take back", 48);
    refuses(" \t^take \t back ", 48);
    says("fill m1 m1", "m1 stays m1, in 1 cell");
    says("fill m1 m200", "m1 is now m200, in 1 cell");
    refuses("fill ^m1 5", 43);
    says("fill m0200 999999", "m200 is now 999999, in 1 cell");
    says("take back", "m200 stands again, in 1 cell");
    says("take back", "m1 stands again, in 1 cell");
    says("take back", "m1 stands again, in 1 cell");
    refuses("^take back", 48);
}

static void check_fill_faults(void)
{
    static const char no_mark[] = "a mark, m1 to m200";
    static const char no_cell[] = "a value, 0 to 999999, or a mark, m1 to m200";
    static const struct misread faults[] = {
        {"fill^", no_mark, END},
        {"fill ^1 5", no_mark, "1"},
        {"fill ^m 5", no_mark, "m"},
        {"fill ^M1 5", no_mark, "M1"},
        {"fill ^- 5", no_mark, "-"},
        {"fill ^hangs 5", no_mark, "hangs"},
        {"fill m1^", no_cell, END},
        {"fill m1 ^x", no_cell, "x"},
        {"fill m1 ^-", no_cell, "-"},
        {"fill m1^, 5", no_cell, ","},
        {"fill m1 ^= 5", no_cell, "="},
        {"fill m1 ^v0", no_cell, "v0"},
        {"fill m1 5 ^6", "the end of the line", "6"},
    };

    START("sheet hangs lamp", "hangs m1");
    misses_each(faults, COUNT_OF(faults));
}

/*
 * The log filled up: 1,365 fills of one cell take three words each, and one word is left. All of them are taken back
 * again, and the row that was asked about, which holds the mark too, is as it was.
 */
static void check_full_log(void)
{
    static const char *const fills[] = {"fill m1 m2", "fill m2 m1"};
    static struct plot first;

    START("sheet hangs lamp", "hangs m1", "ask in(hangs, v0) m1");
    first = desk.plot;
    for (size_t i = 0; i < FILLS; i++)
        says(fills[i % 2], i % 2 == 0
                               ? "m1 is now m2, in 1 cell\nno question became settled, and no verdict was unsettled"
                               : "m2 is now m1, in 1 cell\nno question became settled, and no verdict was unsettled");
    expect("1,365 fills take 4,095 words", desk.plot.log_used == 4095 && desk.plot.fill_count == 1365);
    refuses("^fill m2 5", 47);
    refuses("  ^fill m2 m2", 47);
    refuses("fill ^m1 5", 43);
    says("questions", "asked, plain: in(hangs, v0) m2 (asked of m1): true, 2 looks");
    for (size_t i = FILLS; i > 0; i--)
        says("take back", i % 2 == 1 ? "m1 stands again, in 1 cell\nno verdict changed"
                                     : "m2 stands again, in 1 cell\nno verdict changed");
    refuses("^take back", 48);
    expect("the plot is as it was", memcmp(&first.header, &desk.plot.header, sizeof first.header) == 0 &&
                                        memcmp(first.words, desk.plot.words, sizeof first.words) == 0);
    says("questions", "asked, plain: in(hangs, v0) m1: true, 2 looks");
}

/* A fill of two cells takes the last four words of the log, and taking it back makes room again. */
static void check_last_word(void)
{
    START("sheet hangs lamp", "hangs m1", "hangs m3", "hangs m3");
    for (size_t i = 0; i < FILLS - 1; i++)
        type("fill m1 m1");
    says("fill m3 7", "m3 is now 7, in 2 cells");
    expect("each word of the log is in use", desk.plot.log_used == LOG_WORDS);
    refuses("^fill m1 m1", 47);
    says("take back", "m3 stands again, in 2 cells");
    type("hangs m3");
    refuses("^fill m3 7", 47);
    says("fill m1 5", "m1 is now 5, in 1 cell");
    refuses("^fill m3 7", 47);
}

/* The longest note, of a mark in 3,510 cells, and one that has no room beside it. */
static void check_longest_note(void)
{
    START("sheet six a b c d e f");
    for (size_t row = 0; row < 585; row++)
        type("six m1 m1 m1 m1 m1 m1");
    says("fill m1 m2", "m1 is now m2, in 3510 cells");
    refuses("^fill m2 5", 47);
    says("take back", "m1 stands again, in 3510 cells");
    says("fill m1 5", "m1 is now 5, in 3510 cells");
    refuses("fill ^m1 5", 43);
    says("census", "no mark stands");
}

/* Rows that are entered after a fill are not touched when it is taken back. */
static void check_take_back(void)
{
    START("sheet hangs lamp", "hangs m1", "hangs 8");
    says("fill m1 8", "m1 is now 8, in 1 cell");
    says("hangs m1", "hangs has 3 rows");
    says("fill m1 9", "m1 is now 9, in 1 cell");
    says("take back", "m1 stands again, in 1 cell");
    says("show", "hangs, 3 rows\n  lamp\n     8\n     8\n    m1");
    says("take back", "m1 stands again, in 1 cell");
    says("show", "hangs, 3 rows\n  lamp\n    m1\n     8\n    m1");
    refuses("^take back", 48);
}

void check_fills(void)
{
    check_fill_refusals();
    check_fill_faults();
    check_full_log();
    check_last_word();
    check_longest_note();
    check_take_back();
}
