#include "parts.h"
#include "support/bytes.h"
#include "talk.h"

#include <signal.h>
#include <stdlib.h>
#include <string.h>
#include <sys/resource.h>
#include <unistd.h>

/* The file that cards are written to, and another. */
#define CARD  "desk.card"
#define OTHER "desk 2.card"

static void write_file(const char *name, const void *bytes, size_t count)
{
    FILE *file = fopen(name, "wb");

    if (!file || fwrite(bytes, 1, count, file) != count || fclose(file) != 0) {
        printf("%s cannot be written\n", name);
        exit(2);
    }
}

static void write_card(const uint8_t *bytes, size_t count)
{
    write_file(CARD, bytes, count);
}

/* The number of bytes of a file, which are stored as far as there is room; 0 if it cannot be read. */
static size_t read_card(const char *name, uint8_t bytes[PLOTASK_CARD_BYTES + 1])
{
    FILE *file = fopen(name, "rb");

    if (!file)
        return 0;
    size_t count = fread(bytes, 1, PLOTASK_CARD_BYTES + 1, file);
    fclose(file);
    return count;
}

/* The cells 201 and m200 in a card, and two numbers that are no cells. */
#define C_201     0, 0, 201
#define C_M200    0x0F, 0x43, 0x08
#define C_MILLION 0x0F, 0x42, 0x40
#define C_M201    0x0F, 0x43, 0x09

#define BYTES(...) (const uint8_t[]){__VA_ARGS__}, sizeof((const uint8_t[]){__VA_ARGS__})

/* A cell that is none is found with its last byte; 17 and 42 are about the whole card. */
static const struct {
    uint32_t number;
    const char *before;
    const uint8_t *bytes;
    size_t count;
} bad_cards[] = {
    {11, "byte 1 of the card: ", (const uint8_t[]){0}, 0},
    {11, "byte 2 of the card: ", BYTES(2)},
    {11, "byte 5 of the card: ", BYTES(2, 1, 1, 0)},
    {11, "byte 6 of the card: ", BYTES(2, 1, 1, 0, 1)},
    {11, "byte 7 of the card: ", BYTES(2, 1, 1, 0, 1, 0)},
    {11, "byte 8 of the card: ", BYTES(2, 1, 1, 0, 1, 0, 1)},
    {11, "byte 10 of the card: ", BYTES(2, 1, 1, 0, 1, 0, 1, 0, 0)},
    {11, "byte 11 of the card: ", BYTES(2, 1, 1, 0, 2, 0, 1, C_201)},
    {12, "byte 1 of the card: ", BYTES(0)},
    {12, "byte 1 of the card: ", BYTES(9, 1, 1, 1)},
    {12, "byte 1 of the card: ", BYTES(255, 255, 255)},
    {13, "byte 2 of the card: ", BYTES(2, 0)},
    {13, "byte 3 of the card: ", BYTES(2, 6, 7, 0, 1, 0, 1, C_201)},
    {14, "byte 6 of the card: ", BYTES(2, 1, 1, 0, 1, 2, 1, C_201)},
    {14, "byte 11 of the card: ", BYTES(2, 1, 1, 0, 2, 1, 1, C_201, 255)},
    {15, "byte 7 of the card: ", BYTES(2, 1, 1, 0, 1, 0, 3, C_201)},
    {15, "byte 7 of the card: ", BYTES(2, 1, 1, 0, 1, 1, 128)},
    {16, "byte 10 of the card: ", BYTES(2, 1, 1, 0, 1, 0, 1, C_MILLION)},
    {16, "byte 12 of the card: ", BYTES(1, 2, 0, 1, 0, 3, C_201, C_M201)},
    {16, "byte 9 of the card: ", BYTES(1, 2, 0, 1, 0, 3, 255, 255, 255, C_M201)},
    {17, "", BYTES(1, 1, 0, 2, 0, 1, C_M200, 0, 0)},
    {17, "", BYTES(1, 1, 0, 2, 0, 0, 0, 1, C_M200)},
    {18, "byte 11 of the card: ", BYTES(2, 1, 1, 0, 1, 0, 1, C_201, 0)},
    {18, "byte 5 of the card: ", BYTES(1, 6, 0, 0, 1, 2, 3)},
    {18, "byte 12 of the card: ", BYTES(1, 1, 0, 2, 0, 1, C_M200, 0, 0, 1, 1)},
};

/* Cards that are refused, over a plot with names, a question that was asked, and a fill that can be taken back. */
static void check_bad_cards(void)
{
    START("sheet hangs lamp", "sheet store lamp", "hangs 7", "store -", "ask in(store, v0) 7", "fill m1 5");
    for (size_t i = 0; i < COUNT_OF(bad_cards); i++) {
        write_card(bad_cards[i].bytes, bad_cards[i].count);
        refuses_with("load ^" CARD, bad_cards[i].number, bad_cards[i].before, "");
        refuses_with("  load \t ^" CARD "\t ", bad_cards[i].number, bad_cards[i].before, "");
    }
    says("take back", "m1 stands again, in 1 cell\n"
                      "changed: in(store, v0) 7: unknown, 2 looks; before: false, 2 looks");
}

/* A card of one sheet of one column, whose rows are blank or hold 201. */
static void write_rows(uint32_t rows, bool blank)
{
    static uint8_t bytes[4 + 5 * 65535];
    size_t count = 0;

    put_number(bytes, &count, 0x0101, 2);
    put_number(bytes, &count, rows, 2);
    for (uint32_t i = 0; i < rows; i++) {
        put_number(bytes, &count, blank ? 0 : 1, 2);
        if (!blank)
            put_number(bytes, &count, 201, 3);
    }
    write_card(bytes, count);
}

/* Cards with as many blanks, rows and bytes as there may be, and with one more. */
static void check_large_cards(void)
{
    static const uint8_t zeros[PLOTASK_CARD_BYTES + 1];

    START("sheet hangs lamp", "hangs 7");
    write_rows(200, true);
    says("load " CARD, "a card of 404 bytes read from " CARD ": 1 sheet, 200 rows");
    says("ask in(hangs, v0) m200", "true, 201 looks: it stays so however the marks are filled in");
    write_rows(201, true);
    refuses("load ^" CARD, 17);
    write_rows(2048, false);
    says("load " CARD, "a card of 10244 bytes read from " CARD ": 1 sheet, 2048 rows\n"
                       "the questions asked of the old plot are not asked again");
    refuses("^hangs 7", 42);
    write_rows(2049, false);
    refuses("load ^" CARD, 42);
    write_rows(2340, false);
    refuses("load ^" CARD, 42);
    write_rows(5000, true);
    refuses("load ^" CARD, 17);
    write_card(zeros, PLOTASK_CARD_BYTES);
    refuses_with("load ^" CARD, 12, "byte 1 of the card: ", "");
    write_card(zeros, PLOTASK_CARD_BYTES + 1);
    not_done("load ^" CARD, "the file has more than 11713 bytes, the most that a card has");
    write_rows(65535, false);
    not_done("load ^" CARD, "the file has more than 11713 bytes, the most that a card has");
}

/* The longest card that a plot has: eight sheets and 4,096 words with 3,510 cells. */
static void check_longest_card(void)
{
    static struct plot before;
    static uint8_t bytes[2][PLOTASK_CARD_BYTES + 1];

    START("sheet six a b c d e f", "sheet three a b c", "sheet s2 a", "sheet s3 a", "sheet s4 a", "sheet s5 a",
          "sheet s6 a", "sheet s7 a");
    for (size_t row = 0; row < 584; row++)
        type("six 1 2 3 m4 5 m200");
    type("three 1 2 3");
    type("three m1 m2 999999");
    before = desk.plot;
    unlink(CARD);
    says("save " CARD, "a card of 11713 bytes written to " CARD);
    type("new");
    says("load " CARD, "a card of 11713 bytes read from " CARD ": 8 sheets, 586 rows\n"
                       "a card has no names: the sheets are s0, s1 and so on, their columns c0, c1");
    expect("the header is as it was", memcmp(&before.header, &desk.plot.header, sizeof before.header) == 0);
    expect("the words are as they were", memcmp(before.words, desk.plot.words, sizeof before.words) == 0);
    says("save " OTHER, "a card of 11713 bytes written to " OTHER);
    expect("the files are the same", read_card(CARD, bytes[0]) == PLOTASK_CARD_BYTES &&
                                         read_card(OTHER, bytes[1]) == PLOTASK_CARD_BYTES &&
                                         memcmp(bytes[0], bytes[1], PLOTASK_CARD_BYTES) == 0);
}

#define READ_12  "a card of 12 bytes read from " CARD ": 2 sheets, 2 rows"
#define NO_NAMES "\na card has no names: the sheets are s0, s1 and so on, their columns c0, c1"

/* Two sheets of one and two columns, each with a row: (blank) and (blank, 201). */
static void write_two_rows(void)
{
    static const uint8_t card[] = {2, 1, 2, 0, 2, 0, 0, 1, 2, C_201};

    write_card(card, sizeof card);
}

/* A card has no names. They stay if the plot before it had as many sheets, with the same column counts in order. */
static void check_kept_names(void)
{
    write_two_rows();
    START("sheet hangs lamp", "sheet pairs a b", "hangs m7");
    says("load " CARD, READ_12);
    says("show", "hangs, 1 row\n  lamp\n    m1\npairs, 1 row\n   a    b\n  m2  201");
    START("sheet pairs a b", "sheet hangs lamp");
    says("load " CARD, READ_12 NO_NAMES);
    says("show", "s0, 1 row\n  c0\n  m1\ns1, 1 row\n  c0   c1\n  m2  201");
    misses("^pairs 1 2", "a command or a sheet's name (help lists the commands)", "pairs");
    says("s1 1 2", "s1 has 2 rows");
    says("load " CARD, READ_12);
    says("sheet hangs lamp", "sheet 2 is hangs, with 1 column: lamp");
    misses("sheet ^s0 a", "a name that no sheet has", "s0");
    says("load " CARD, READ_12 NO_NAMES);
    START("sheet hangs lamp");
    says("load " CARD, READ_12 NO_NAMES);
    START("");
    says("load " CARD, READ_12 NO_NAMES);
}

/* After a card is read there is nothing to take back, and the questions asked before are gone. Those with names stay. */
static void check_fresh_start(void)
{
    write_two_rows();
    START("sheet hangs lamp", "sheet pairs a b", "hangs m9", "question q: in(pairs, v0, v1)",
          "question p: or(equal(5, 6), in(1, 5, 5))");
    type("question r: in(hangs, v0)");
    type("ask q m20 5");
    type("fill m9 5");
    says("load " CARD, READ_12 "\nthe questions asked of the old plot are not asked again");
    refuses("^take back", 48);
    says("hangs -", "hangs has 2 rows; the blank is m3");
    says("questions", "q, plain: in(pairs, v0, v1)\np, plain: or(equal(5, 6), in(1, 5, 5))\nr, plain: in(hangs, v0)");
    says("fill m1 5", "m1 is now 5, in 1 cell");
    says("take back", "m1 stands again, in 1 cell");
    says("ask q 5 201", "unknown, 2 looks: some way to ink the marks makes it false");
    says("fill m2 5", "m2 is now 5, in 1 cell\nbecame settled: q 5 201: true, 2 looks; before: unknown, 2 looks\n"
                      "no verdict was unsettled");
    /* a plot with one sheet less, whose only sheet has two columns */
    write_card((const uint8_t[]){1, 2, 0, 0}, 4);
    says("load " CARD, "a card of 4 bytes read from " CARD ": 1 sheet, 0 rows" NO_NAMES
                       "\nthe questions asked of the old plot are not asked again");
    not_done("ask ^q 5 201", "in q: expected the name of a sheet, or its number, found \"pairs\"");
    refuses_with("ask  ^p", 25, "1 in p: ", "");
    says("question s: in(0, 1, 2)", "s is a question now");
    write_card((const uint8_t[]){1, 1, 0, 0}, 4);
    says("load " CARD, "a card of 4 bytes read from " CARD ": 1 sheet, 0 rows" NO_NAMES);
    not_done("ask ^s", "in s: expected \")\", since s0 has 1 column, found \",\"");
}

/* Whether a file holds a text, to its end. */
static bool holds(const char *name, const char *text)
{
    uint8_t bytes[PLOTASK_CARD_BYTES + 1];
    size_t length = strlen(text);

    return read_card(name, bytes) == length && memcmp(bytes, text, length) == 0;
}

/* Files that cannot be read or written, and such as are not replaced. A name may have blanks, but no #. */
static void check_files(void)
{
    static const char no_card[] = "the file is there and is no card, so it is not replaced";
    static const char not_written[] = "the file, or one with a ~ after its name, cannot be written";
    uint8_t bytes[PLOTASK_CARD_BYTES + 1];

    START("sheet hangs lamp", "hangs m5", "fill m5 6");
    misses("load^", "the name of a file", END);
    misses("save ^# " CARD, "the name of a file", END);
    not_done("load ^none/desk.card", "the file cannot be read");
    not_done("load ^.", "the file cannot be read");
    not_done("save ^none/desk.card", not_written);
    not_done("save ^.", not_written);
    says("save   " OTHER " \t# a copy", "a card of 9 bytes written to " OTHER);
    expect("the file has no blanks at its end", read_card(OTHER, bytes) == 9);
    expect("nothing is left beside it", read_card(OTHER "~", bytes) == 0);
    says("load " OTHER "\r", "a card of 9 bytes read from " OTHER ": 1 sheet, 1 row");
    says("save caf\xC3\xA9.card#5", "a card of 9 bytes written to caf\xC3\xA9.card");
    says("load caf\xC3\xA9.card", "a card of 9 bytes read from caf\xC3\xA9.card: 1 sheet, 1 row");
    says("show", "hangs, 1 row\n  lamp\n     6");
    write_file(CARD, "a letter", 8);
    not_done("save ^" CARD, no_card);
    expect("what is no card stays", holds(CARD, "a letter"));
    write_file(CARD, "", 0);
    not_done("save ^" CARD, no_card);
    unlink(CARD);
    write_file(CARD "~", "a letter", 8);
    not_done("save ^" CARD, not_written);
    expect("what has the ~ stays, and no card is written", holds(CARD "~", "a letter") && read_card(CARD, bytes) == 0);
    unlink(CARD "~");
    unlink(OTHER);
    START("");
    refuses("^save " OTHER, 41);
    expect("no file is written for a plot without sheets", read_card(OTHER, bytes) == 0);
}

/* A disk without room: no file may grow beyond four bytes. The card that was there stays, and nothing beside it. */
static void check_full_disk(void)
{
    uint8_t bytes[PLOTASK_CARD_BYTES + 1];
    struct rlimit before, four;

    START("sheet hangs lamp", "hangs 5", "save " CARD, "hangs 6");
    fflush(stdout);
    signal(SIGXFSZ, SIG_IGN);
    getrlimit(RLIMIT_FSIZE, &before);
    four = before;
    four.rlim_cur = 4;
    setrlimit(RLIMIT_FSIZE, &four);
    not_done("save ^" CARD, "the file, or one with a ~ after its name, cannot be written");
    not_done("save ^" OTHER, "the file, or one with a ~ after its name, cannot be written");
    setrlimit(RLIMIT_FSIZE, &before);
    expect("nothing is left of a card that has no room",
           read_card(OTHER, bytes) + read_card(OTHER "~", bytes) + read_card(CARD "~", bytes) == 0);
    says("load " CARD, "a card of 9 bytes read from " CARD ": 1 sheet, 1 row");
    unlink(CARD);
}

void check_cards(void)
{
    check_bad_cards();
    check_large_cards();
    check_longest_card();
    check_kept_names();
    check_fresh_start();
    check_files();
    check_full_disk();
}
