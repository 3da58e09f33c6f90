#include "parts.h"
#include "talk.h"

#include <string.h>

#define M(mark) PLOTASK_MARK(mark)

static uint32_t last_word(void)
{
    return desk.plot.words[desk.plot.header.used - 1];
}

static void check_cell_limits(void)
{
    static const struct {
        const char *line;
        uint32_t cell;
    } cells[] = {
        {"hangs 0", 0},
        {"hangs 999999", 999999},
        {"hangs m1", M(1)},
        {"hangs m200", M(200)},
        {"hangs 000000000000000000000000000201", 201},
        {"hangs m00000000000000000000000000004", M(4)},
        {"enter 0 7", 7},
        {"enter 000000000000000000000000000000 8", 8},
        {"enter hangs 9", 9},
    };
    static const char *const no_cells[] = {
        "hangs ^1000000",      "hangs ^1000001", "hangs ^4294967297",  "hangs ^999999999999999999999999999999",
        "hangs ^m0",           "hangs ^m201",    "hangs ^m4294967297", "hangs ^m999999999999999999999999999999",
        "pairs ^1000000 m201", "pairs 5 ^m0"};

    START("sheet hangs lamp", "sheet pairs a b");
    for (size_t i = 0; i < COUNT_OF(cells); i++) {
        char answer[32];
        snprintf(answer, sizeof answer, "hangs has %zu row%s", i + 1, i == 0 ? "" : "s");
        says(cells[i].line, answer);
        expect(cells[i].line, last_word() == cells[i].cell);
    }
    for (size_t i = 0; i < COUNT_OF(no_cells); i++)
        refuses(no_cells[i], 16);
}

static void check_no_cells(void)
{
    static const char no_cell[] = "a cell: a value, 0 to 999999, a mark, m1 to m200, or a blank, -";
    static const char space[] = "a space after a cell";
    static const struct misread faults[] = {
        {"hangs ^x", no_cell, "x"},
        {"hangs ^5x", no_cell, "5x"},
        {"hangs ^m", no_cell, "m"},
        {"hangs ^m4x", no_cell, "m4x"},
        {"hangs ^M4", no_cell, "M4"},
        {"hangs ^v0", no_cell, "v0"},
        {"hangs ^+5", no_cell, "+"},
        {"hangs ^, 5", no_cell, ","},
        {"hangs 5 ^x", no_cell, "x"},
        {"hangs 1 2 3 4 5 6 7 8 ^x", no_cell, "x"},
        {"hangs -^5", space, "5"},
        {"hangs -^-", space, "-"},
        {"hangs 5^-", space, "-"},
        {"pairs 5^,6", space, ","},
        {"hangs 5^.5", space, "."},
        {"enter^", "the name of a sheet, or its number", END},
        {"enter ^lamp 5", "the name of a sheet, or its number", "lamp"},
        {"enter ^-1 5", "the name of a sheet, or its number", "-"},
    };

    START("sheet hangs lamp", "sheet pairs a b");
    misses_each(faults, COUNT_OF(faults));
}

/* A row with more or fewer cells than its sheet has columns, which comes before a number that is no cell. */
static void check_row_length(void)
{
    static const char one[] = ": hangs has 1 column", two[] = ": pairs has 2 columns", six[] = ": six has 6 columns";
    static const struct {
        const char *line;
        const char *after;
    } rows[] = {
        {"hangs^", one},
        {"hangs  ^", one},
        {"hangs 1 ^2", one},
        {"hangs 1 ^2 3 4 5 6 7 8 9", one},
        {"hangs - ^-", one},
        {"hangs 1000000 ^m0", one},
        {"pairs 1^", two},
        {"pairs m0^", two},
        {"pairs 1 2 ^3", two},
        {"enter 1 - - ^- -", two},
        {"six 1 2 3 4 5^", six},
        {"six 1 2 3 4 5 6 ^7", six},
        {"six 1 2 3 4 5 6 ^7 8", six},
        {"six 1 2 3 4 5 6 ^m999 8 9 10 11 12 13 14 15 16", six},
    };

    START("sheet hangs lamp", "sheet pairs a b", "sheet six a b c d e f");
    for (size_t i = 0; i < COUNT_OF(rows); i++)
        refuses_with(rows[i].line, 27, "", rows[i].after);
    refuses("enter ^3 1", 14);
    refuses("enter ^7 1", 14);
    refuses("enter ^8 1", 14);
    refuses("enter ^3", 14);
    refuses("enter ^4294967296 1", 14);
    refuses("enter ^999999999999999999999999999999 m0", 14);
}

/* A blank gets a mark above those of the plot, the row, the fills that can be taken back, and the rows asked about. */
static void check_blanks(void)
{
    START("sheet hangs lamp", "sheet pairs a b");
    says("hangs -", "hangs has 1 row; the blank is m1");
    says("pairs - -", "pairs has 1 row; the blanks are m2, m3");
    says("pairs - m7", "pairs has 2 rows; the blank is m8");
    says("pairs m5 -", "pairs has 3 rows; the blank is m9");
    type("fill m9 5");
    says("hangs -", "hangs has 2 rows; the blank is m10");
    type("fill m10 m12");
    says("hangs -", "hangs has 3 rows; the blank is m13");
    type("fill m13 m3");
    says("hangs -", "hangs has 4 rows; the blank is m14");
    says("take back", "m13 stands again, in 1 cell");
    says("census", "m1 stands in 1 cell\nm2 stands in 1 cell\nm3 stands in 1 cell\nm5 stands in 1 cell\nm7 stands in 1 "
                   "cell\nm8 stands in 1 cell\nm12 stands in 1 cell\nm13 stands in 1 cell\nm14 stands in 1 cell");
    type("ask equal(v0, v1) 7 m20");
    says("hangs -", "hangs has 5 rows; the blank is m21");
    says("hangs m3", "hangs has 6 rows");
    says("pairs 5 -", "pairs has 4 rows; the blank is m22");
    expect("the blank is in the row", last_word() == M(22));
}

static void check_marks_used_up(void)
{
    static const char elsewhere[] = "; the highest is in a fill or in a row asked about";

    START("sheet hangs lamp", "sheet pairs a b", "hangs m199");
    refuses("pairs - ^-", 17);
    refuses("pairs m200 ^-", 17);
    says("hangs -", "hangs has 2 rows; the blank is m200");
    refuses("hangs ^-", 17);
    refuses("pairs ^- -", 17);
    refuses("pairs 5 ^-", 17);
    refuses("pairs - ^1000000", 16);
    refuses("pairs ^m0 -", 16);
    refuses("pairs ^999999999999999999999999999999 -", 16);
    refuses_with("pairs -^", 27, "", ": pairs has 2 columns");
    refuses_with("hangs - ^1000000", 27, "", ": hangs has 1 column");
    type("fill m200 5");
    refuses_with("hangs ^-", 17, "", elsewhere);
    type("fill m199 5");
    refuses_with("hangs ^-", 17, "", elsewhere);
    says("hangs m4", "hangs has 3 rows");
    START("sheet hangs lamp", "ask equal(v0, 5) m200");
    refuses_with("hangs ^-", 17, "", elsewhere);
    says("forget", "1 question not asked again");
    says("hangs -", "hangs has 1 row; the blank is m1");
}

static bool is_sound(void)
{
    uint32_t counts[PLOTASK_MARKS], count;

    return plotask_null_counts(PLOTASK_CONST_HEADER(&desk.plot.header), desk.plot.words, PLOTASK_WORDS, counts,
                               PLOTASK_MARKS, &count) == PLOTASK_DONE;
}

/* All 4,096 words: 584 rows of six columns, and two of three. A row with another fault is refused for that first. */
static void check_full_plot(void)
{
    START("sheet hangs lamp", "sheet six a b c d e f", "sheet three a b c");
    for (size_t row = 0; row < 584; row++)
        type("six 1 2 3 4 5 m6");
    says("three 1 2 3", "three has 1 row");
    refuses("^six 1 2 3 4 5 6", 42);
    says("three 7 8 m200", "three has 2 rows");
    expect("each of the 4,096 words is in use", desk.plot.header.used == PLOTASK_WORDS && last_word() == M(200));
    refuses("^hangs 5", 42);
    refuses("enter ^hangs 5", 42);
    refuses("  ^three 1 2 3", 42);
    refuses("enter ^1 1 2 3 4 5 6", 42);
    refuses("hangs ^1000000", 16);
    refuses("hangs ^-", 17);
    refuses_with("hangs 5 ^6", 27, "", ": hangs has 1 column");
    expect("the full plot is sound", is_sound());
    says("census", "m6 stands in 584 cells\nm200 stands in 1 cell");
    says("ask in(three, 7, 8, 9)", "unknown, 3 looks: some way to ink the marks makes it false");
    says("fill m200 9",
         "m200 is now 9, in 1 cell\nbecame settled: in(three, 7, 8, 9): true, 3 looks; before: unknown, 3 looks\n"
         "no verdict was unsettled");
}

/* A plot with two words left: room for a row of one column, and for no other. */
static void check_last_row(void)
{
    START("sheet hangs lamp", "sheet pairs a b");
    for (size_t row = 0; row < 2047; row++)
        type("hangs 5");
    refuses("^pairs 1 2", 42);
    says("hangs -", "hangs has 2048 rows; the blank is m1");
    refuses("^hangs -", 42);
    expect("the last word is the blank's mark", desk.plot.header.used == 4096 && last_word() == M(1));
}

void check_rows(void)
{
    check_cell_limits();
    check_no_cells();
    check_row_length();
    check_blanks();
    check_marks_used_up();
    check_full_plot();
    check_last_row();
}
