#include "parts.h"
#include "talk.h"

#include <stdlib.h>
#include <string.h>

/* A row whose only cell is the last byte of a line. */
static void put_row(char *line, size_t length)
{
    memset(line, ' ', length);
    memcpy(line, "hangs", 5);
    line[length - 1] = '7';
}

static void check_length(void)
{
    static const char too_long[] = "a line has at most 4095 bytes";
    static char line[100000];

    START("sheet hangs lamp");
    put_row(line, 4095);
    says_bytes(line, 4095, "hangs has 1 row");
    line[4094] = 'x';
    not_done_bytes(line, 4095, 4095,
                   "expected a cell: a value, 0 to 999999, a mark, m1 to m200, or a blank, -, found \"x\"");
    put_row(line, 4095);
    line[4095] = '\r';
    says_bytes(line, 4096, "hangs has 2 rows");
    line[4096] = '\r';
    not_done_bytes(line, 4097, 4096, too_long);
    put_row(line, 4096);
    not_done_bytes(line, 4096, 4096, too_long);
    put_row(line, sizeof line);
    not_done_bytes(line, sizeof line, 4096, too_long);
    line[0] = '#';
    not_done_bytes(line, 4096, 4096, too_long);
    says_bytes(line, 4095, "");
    memset(line, ' ', 4095);
    says_bytes(line, 4095, "");
    expect("two rows of 7 were entered",
           desk.plot.header.used == 4 && desk.plot.words[1] == 7 && desk.plot.words[3] == 7);
}

/* Of a line that is longer than LINE_ROOM, the desk may be given as many bytes alone: none of them is read. */
static void check_longer_line(void)
{
    char *line = malloc(LINE_ROOM);

    if (!line)
        exit(2);
    memset(line, '\r', LINE_ROOM);
    START("sheet hangs lamp");
    not_done_bytes(line, LINE_ROOM + 1, 4096, "a line has at most 4095 bytes");
    not_done_bytes(line, SIZE_MAX, 4096, "a line has at most 4095 bytes");
    free(line);
}

/* A control byte before, in and after a line. A tab is a blank, and a carriage return may end a line. */
static void check_control_byte(unsigned char byte)
{
    static const size_t places[] = {0, 6, 10};
    char text[40];

    snprintf(text, sizeof text, "a control byte, 0x%02X", (unsigned)byte);
    for (size_t i = 0; i < COUNT_OF(places); i++) {
        char line[] = " hangs 201 ";
        line[places[i]] = (char)byte;
        START("sheet hangs lamp");
        if (byte == '\t' || (byte == '\r' && places[i] == 10))
            says_bytes(line, 11, "hangs has 1 row");
        else
            not_done_bytes(line, 11, places[i] + 1, text);
    }
}

static void check_control_bytes(void)
{
    for (unsigned char byte = 0; byte < ' '; byte++)
        check_control_byte(byte);
    check_control_byte(0x7F);
    START("sheet hangs lamp");
    not_done_bytes("hangs 201\r\r", 11, 10, "a control byte, 0x0D");
    not_done_bytes("hangs 201\0hangs 202", 19, 10, "a control byte, 0x00");
    not_done_bytes("lamp \x01", 6, 6, "a control byte, 0x01");
    not_done_bytes("hangs 201\0# no comment", 22, 10, "a control byte, 0x00");
    says_bytes("# a comment may have \0, \x01 and \x7F", 32, "");
    says_bytes("hangs 201 #\0", 12, "hangs has 1 row");
}

/* Bytes that are no ASCII are for the names of files and for comments. */
static void check_high_bytes(void)
{
    START("sheet hangs lamp");
    for (unsigned byte = 0x80; byte <= 0xFF; byte++) {
        char line[] = "?hangs 201?", text[80];
        line[0] = ' ';
        line[10] = (char)byte;
        snprintf(text, sizeof text, "expected letters from a to z, digits and signs, found the byte 0x%02X", byte);
        not_done_bytes(line, 11, 11, text);
        line[0] = (char)byte;
        not_done_bytes(line, 11, 1, text);
    }
    not_done("sheet stor^\xC3\xA9 lamp", "expected letters from a to z, digits and signs, found the byte 0xC3");
    not_done("ask in(hangs, ^\xFF", "expected letters from a to z, digits and signs, found the byte 0xFF");
    not_done("lamp ^\xFF", "expected letters from a to z, digits and signs, found the byte 0xFF");
    not_done("?^\xFF", "expected a command or the number of a refusal, found the byte 0xFF");
    not_done("load ^none/\xC3\xA9", "the file cannot be read");
    says("hangs 201 # caf\xC3\xA9", "hangs has 1 row");
}

static void check_comments(void)
{
    static const char *const empty[] = {"", " ", "\t \t", "\r", " \r", "#", "# hangs 201", " \t#hangs 201", "##"};

    START("sheet hangs lamp");
    for (size_t i = 0; i < COUNT_OF(empty); i++)
        says(empty[i], "");
    says("hangs 201 # the lamp", "hangs has 1 row");
    says("hangs 202\t#", "hangs has 2 rows");
    says("\t hangs  \t 203 \t\r", "hangs has 3 rows");
    says("hangs 204# the lamp", "hangs has 4 rows");
    refuses_with("hangs ^# 204", 27, "", ": hangs has 1 column");
    ends("quit # now");
}

static const char no_command[] = "a command or a sheet's name (help lists the commands)";

static const struct misread unknown[] = {
    {"^lamp 201", no_command, "lamp"},
    {"  ^lamp", no_command, "lamp"},
    {"^hang 201", no_command, "hang"},
    {"^hangss 201", no_command, "hangss"},
    {"^Hangs 201", no_command, "Hangs"},
    {"^0 201", no_command, "0"},
    {"^s0 201", no_command, "s0"},
    {"^tak back", no_command, "tak"},
    {"^questio q: in(hangs, v0)", no_command, "questio"},
    {"^questionss", no_command, "questionss"},
    {"^Ask in(hangs, v0) 1", no_command, "Ask"},
    {"^helpx", no_command, "helpx"},
    {"^- 201", no_command, "-"},
    {"^(hangs 201)", no_command, "("},
    {"^\"hangs\" 201", no_command, "\""},
    {"^%s%n 201", no_command, "%"},
    {"^abcdefghijklmnopqrstuvwx", no_command, "abcdefghijklmnopqrstuvwx"},
    {"^abcdefghijklmnopqrstuvwxy", no_command, "abcdefghijklmnopqrstuvwx.."},
};

static void check_unknown_words(void)
{
    START("sheet hangs lamp");
    misses_each(unknown, COUNT_OF(unknown));
    misses("take^", "\"back\"", END);
    misses("take ^bac", "\"back\"", "bac");
    misses("take ^backs", "\"back\"", "backs");
    misses("take back ^now", "the end of the line", "now");
    misses("census ^hangs", "the end of the line", "hangs");
    misses("questions ^q", "the end of the line", "q");
    misses("new ^plot", "the end of the line", "plot");
    misses("quit ^now", "the end of the line", "now");
    misses("show hangs ^lamp", "the end of the line", "lamp");
    misses("help 41 ^42", "the end of the line", "42");
}

/* A column is as wide as its widest cell or its name. */
static void check_show(void)
{
    START("sheet hangs lamp", "sheet store shelf n", "store 3 m7", "hangs m200", "fill m200 5", "store 1000 999999");
    says("show hangs", "hangs, 1 row\n  lamp\n     5");
    says("show 1", "store, 2 rows\n  shelf       n\n      3      m7\n   1000  999999");
    says("show", "hangs, 1 row\n  lamp\n     5\nstore, 2 rows\n  shelf       n\n      3      m7\n   1000  999999");
    misses("show ^2", "the name of a sheet, or its number", "2");
    misses("show ^8", "the name of a sheet, or its number", "8");
    misses("show ^999999999999999999999999999999", "the name of a sheet, or its number", "999999999999999999999999..");
    misses("show ^lamp", "the name of a sheet, or its number", "lamp");
    misses("show ^-", "the name of a sheet, or its number", "-");
}

/* The list of commands has each of them, and ? gives the same list. */
static void check_help(void)
{
    static const char *const commands[] = {"sheet", "[enter]",   "fill", "take", "census", "show", "question",
                                           "ask",   "questions", "load", "save", "new",    "help", "quit"};
    char list[8192];

    START("sheet hangs lamp");
    type("help");
    snprintf(list, sizeof list, "%s", last_answer());
    for (size_t i = 0; i < COUNT_OF(commands); i++) {
        char start[32];
        snprintf(start, sizeof start, "\n  %s ", commands[i]);
        expect(commands[i], strstr(list, start) || strncmp(list, start + 1, strlen(start + 1)) == 0);
    }
    list[strlen(list) - 1] = '\0';
    says("?", list);
    says(" ? # all", list);
}

static void check_new(void)
{
    static struct desk fresh;

    START("sheet hangs lamp", "hangs -", "hangs m7", "question q: in(hangs, v0)", "ask q m1", "fill m1 5");
    says("new", "a new plot, without sheets");
    desk_start(&fresh, desk.out);
    expect("a new desk is as one that was started", memcmp(&fresh, &desk, sizeof desk) == 0);
    says("show", "no sheets yet");
    says("questions", "no questions yet");
    refuses("^take back", 41);
    says("sheet hangs lamp", "sheet 0 is hangs, with 1 column: lamp");
    says("hangs -", "hangs has 1 row; the blank is m1");
    ends("quit");
    ends("  quit\r");
}

void check_lines(void)
{
    check_length();
    check_longer_line();
    check_control_bytes();
    check_high_bytes();
    check_comments();
    check_unknown_words();
    check_show();
    check_help();
    check_new();
}
