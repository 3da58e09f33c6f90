#include "parts.h"
#include "talk.h"

#include <string.h>

static void check_sheet_names(void)
{
    START("sheet hangs lamp");
    says("sheet abcdefghijklmnop abcdefghijklmnop", "sheet 1 is abcdefghijklmnop, with 1 column: abcdefghijklmnop");
    misses("sheet ^abcdefghijklmnopq a", "a name for the sheet of at most 16 letters, digits and _",
           "abcdefghijklmnopq");
    misses("sheet a ^abcdefghijklmnopq", "a name for a column of at most 16 letters, digits and _",
           "abcdefghijklmnopq");
    misses("sheet ^m4 a", "a name for the sheet that is no mark or variable", "m4");
    misses("sheet ^v0 a", "a name for the sheet that is no mark or variable", "v0");
    misses("sheet ^m999999999999999999999999999999 a", "a name for the sheet that is no mark or variable",
           "m99999999999999999999999..");
    misses("sheet a b ^m201", "a name for a column that is no mark or variable", "m201");
    misses("sheet a ^v16", "a name for a column that is no mark or variable", "v16");
    says("sheet m v", "sheet 2 is m, with 1 column: v");
    says("sheet m4x v0_", "sheet 3 is m4x, with 1 column: v0_");
    says("sheet M4 V0", "sheet 4 is M4, with 1 column: V0");
    says("sheet in some in", "sheet 5 is in, with 2 columns: some, in");
    says("m 5", "m has 1 row");
    says("m4x 5", "m4x has 1 row");
    says("in 5 5", "in has 1 row");
    says("ask some(in, in(in, in, in))", "true, 2 looks: it stays so however the marks are filled in");
}

static void check_sheet_faults(void)
{
    static const char no_name[] = "a name for the sheet: a letter, then letters, digits and _";
    static const char no_column[] = "a name for a column: a letter, then letters, digits and _";
    static const struct misread faults[] = {
        {"sheet^", no_name, END},
        {"sheet ^5", no_name, "5"},
        {"sheet ^5a b", no_name, "5a"},
        {"sheet ^_a b", no_name, "_a"},
        {"sheet ^(a) b", no_name, "("},
        {"sheet a ^5", no_column, "5"},
        {"sheet a b^, c", no_column, ","},
        {"sheet a^-b c", no_column, "-"},
        {"sheet a b c d e f ^5", no_column, "5"},
        {"sheet ^hangs a", "a name that no sheet has", "hangs"},
    };

    START("sheet hangs lamp");
    misses_each(faults, COUNT_OF(faults));
    refuses("sheet a^", 13);
    refuses("sheet a ^# b", 13);
    refuses("sheet a b c d e f g ^h", 13);
}

/* A row starts with its sheet, so no sheet has the name of a command. Columns may. */
static void check_command_names(void)
{
    static const char *const commands[] = {"sheet", "enter",     "fill", "take", "census", "show", "question",
                                           "ask",   "questions", "load", "save", "new",    "help", "quit"};

    START("sheet hangs lamp");
    for (size_t i = 0; i < COUNT_OF(commands); i++) {
        char line[64];
        snprintf(line, sizeof line, "sheet ^%s a", commands[i]);
        misses(line, "a name that is no command", commands[i]);
    }
    says("sheet Sheet sheet enter", "sheet 1 is Sheet, with 2 columns: sheet, enter");
    says("sheet back take", "sheet 2 is back, with 1 column: take");
    says("back 5", "back has 1 row");
}

static void check_columns(void)
{
    START("sheet one a");
    says("sheet six a b c d e f", "sheet 1 is six, with 6 columns: a, b, c, d, e, f");
    says("six 1 2 3 4 5 6", "six has 1 row");
    refuses("sheet seven a b c d e f ^g", 13);
    refuses("sheet eight a b c d e f ^g h", 13);
    refuses("sheet many a b c d e f ^g h i j k l m n o p q r s t u", 13);
    refuses("sheet none^", 13);
    refuses("sheet none  ^", 13);
    expect("a refused sheet does not count", desk.plot.header.relations == 2);
    misses("sheet none same ^same", "a name that no column before it has", "same");
    misses("sheet none a b c d e ^b", "a name that no column before it has", "b");
    says("sheet none same Same", "sheet 2 is none, with 2 columns: same, Same");
}

static void check_eight_sheets(void)
{
    static const char *const names[] = {"a", "ab", "abc", "abcd", "b", "ba", "bac", "bacd"};

    START("sheet a c");
    for (size_t i = 1; i < PLOTASK_RELATIONS; i++) {
        char line[32], answer[64];
        snprintf(line, sizeof line, "sheet %s c", names[i]);
        snprintf(answer, sizeof answer, "sheet %zu is %s, with 1 column: c", i, names[i]);
        says(line, answer);
    }
    refuses("sheet ^ninth c", 12);
    refuses("sheet ^ninth", 12);
    refuses("sheet ^ninth a b c d e f g", 12);
    misses("sheet ^abc c", "a name that no sheet has", "abc");
    /* each name is that of its own sheet, though one starts as another does */
    for (size_t i = 0; i < PLOTASK_RELATIONS; i++) {
        char line[32], answer[64];
        snprintf(line, sizeof line, "%s %zu", names[i], 100 + i);
        snprintf(answer, sizeof answer, "%s has 1 row", names[i]);
        says(line, answer);
        expect(line, desk.plot.words[2 * i] == i && desk.plot.words[2 * i + 1] == 100 + i);
        snprintf(line, sizeof line, "ask in(%s, %zu)", names[i], 100 + i);
        says(line, "true, 2 looks: it stays so however the marks are filled in");
    }
}

void check_sheets(void)
{
    check_sheet_names();
    check_sheet_faults();
    check_command_names();
    check_columns();
    check_eight_sheets();
}
