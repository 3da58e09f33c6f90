#include "lines.h"
#include "card_files.h"
#include "typing/typing.h"

#include <stdarg.h>
#include <stdio.h>
#include <string.h>

__attribute__((format(printf, 2, 3))) static void add(struct any_line *line, const char *format, ...)
{
    size_t room = sizeof line->bytes - line->length;
    va_list arguments;

    va_start(arguments, format);
    size_t length = (size_t)vsnprintf(line->bytes + line->length, room, format, arguments);
    va_end(arguments);
    line->length += length < room ? length : room - 1;
}

static void start(struct any_line *line, const char *text)
{
    line->length = 0;
    add(line, "%s", text);
}

static void add_blank(struct random *random, struct any_line *line)
{
    add(line, "%s", one_in(random, 12) ? " \t " : " ");
}

static const char *any_of(struct random *random, const char *const *texts, size_t count)
{
    return texts[below(random, count)];
}

#define ANY_OF(random, texts) any_of(random, texts, sizeof(texts) / sizeof *(texts))

static const char *any_name(struct random *random)
{
    static const char *const names[] = {
        "hangs", "store", "a", "ab", "abc", "x", "y", "lamp", "q", "hire", "m", "in_", "abcdefghijklmnop"};
    static const char *const no_names[] = {"m4", "v0", "5a", "_a", "abcdefghijklmnopq", "ask", "quit", "", "-", "some"};

    return one_in(random, 25) ? ANY_OF(random, no_names) : ANY_OF(random, names);
}

/* In a large plot a question gets an allowance that is soon spent. */
static bool is_large(void)
{
    return desk.plot.header.used > 500;
}

/* A number at a limit, or beyond it, wherever a number can stand. */
static const char *odd_number_text(struct random *random)
{
    static const char *const numbers[] = {"0",
                                          "7",
                                          "8",
                                          "15",
                                          "16",
                                          "200",
                                          "201",
                                          "999999",
                                          "1000000",
                                          "4294967295",
                                          "4294967296",
                                          "18446744073709551616",
                                          "999999999999999999999999999999"};

    return ANY_OF(random, numbers);
}

static void add_cell(struct random *random, struct any_line *line, bool blanks)
{
    size_t choice = below(random, 60);

    add_blank(random, line);
    if (choice == 0)
        add(line, "%s", odd_number_text(random));
    else if (choice == 1)
        add(line, "m%s", odd_number_text(random));
    else if (choice == 2)
        add(line, "%s", any_name(random));
    else if (choice == 3)
        add(line, "m%u", 197 + (unsigned)below(random, 5));
    else if (choice < 15 && blanks)
        add(line, "-");
    else if (choice < 30)
        add(line, "m%u", 1 + (unsigned)below(random, one_in(random, 6) ? 12 : 4));
    else
        add(line, "%u", (unsigned)below(random, 5));
}

/* A sheet by its name or number; most often one that the plot has. Returns its columns. */
static uint32_t add_sheet(struct random *random, struct any_line *line, bool numbers)
{
    const struct plotask_header *header = &desk.plot.header;
    uint32_t sheet = header->relations > 0 ? below(random, header->relations) : 0;

    if (header->relations == 0 || one_in(random, 40)) {
        add(line, "%s", one_in(random, 2) ? any_name(random) : odd_number_text(random));
        return 1 + below(random, 3);
    }
    if (numbers && one_in(random, 4))
        add(line, "%u", (unsigned)sheet);
    else
        add(line, "%s", desk.plot.sheets[sheet].name);
    return header->arities[sheet];
}

void make_sheet_line(struct random *random, struct any_line *line)
{
    size_t columns = one_in(random, 12) ? below(random, 9) : 1 + below(random, 3);

    start(line, "sheet");
    add_blank(random, line);
    add(line, "%s", any_name(random));
    for (; columns > 0; columns--) {
        add_blank(random, line);
        add(line, "%s", any_name(random));
    }
}

static void make_row_line(struct random *random, struct any_line *line)
{
    bool enter = one_in(random, 3);

    start(line, enter ? "enter " : "");
    uint32_t cells = add_sheet(random, line, enter);
    if (one_in(random, 20))
        cells = below(random, 10);
    for (; cells > 0; cells--)
        add_cell(random, line, true);
}

/* A mark that stands in the plot, if a few tries find one. */
static uint32_t any_mark(struct random *random)
{
    for (size_t tries = 0; tries < 20 && desk.plot.header.used > 0; tries++) {
        uint32_t word = desk.plot.words[below(random, desk.plot.header.used)];
        if (word > PLOTASK_CONSTANTS)
            return word - PLOTASK_CONSTANTS;
    }
    return 1 + below(random, 5);
}

void make_fill_line(struct random *random, struct any_line *line)
{
    start(line, "fill");
    if (one_in(random, 12))
        add_cell(random, line, false);
    else
        add(line, " m%u", (unsigned)any_mark(random));
    add_cell(random, line, false);
}

/* A question being written: the names after some and every that are open. */
struct writing {
    struct random *random;
    struct any_line *line;
    const char *names[8];
    size_t open;
};

static void add_term(struct writing *writing)
{
    struct random *random = writing->random;

    if (writing->open > 0 && one_in(random, 2))
        add(writing->line, "%s", writing->names[below(random, writing->open)]);
    else if (one_in(random, 80))
        add(writing->line, "%s%s", one_in(random, 2) ? "v" : "", odd_number_text(random));
    else if (one_in(random, 120))
        add(writing->line, "m1");
    else if (one_in(random, 3))
        add(writing->line, "v%u", (unsigned)below(random, 3));
    else
        add(writing->line, "%u", (unsigned)below(random, 5));
}

static void add_leaf(struct writing *writing)
{
    if (one_in(writing->random, 3)) {
        add(writing->line, "equal(");
        add_term(writing);
        add(writing->line, ", ");
        add_term(writing);
    } else {
        add(writing->line, "in(");
        uint32_t terms = add_sheet(writing->random, writing->line, true);
        if (one_in(writing->random, 60))
            terms = below(writing->random, 8);
        for (; terms > 0; terms--) {
            add(writing->line, ",%s", one_in(writing->random, 3) ? "" : " ");
            add_term(writing);
        }
    }
    add(writing->line, ")");
}

/* A question with at most this many levels above its leaves, and at most `names` nested quantifiers. */
static void add_node(struct writing *writing, size_t levels, size_t names)
{
    static const char *const joins[] = {"and(", "or("}, *const quantifiers[] = {"some(", "every("};

    if (levels == 0 || one_in(writing->random, 4)) {
        add_leaf(writing);
        return;
    }
    switch (below(writing->random, names > 0 ? 5 : 3)) {
    case 0:
        add(writing->line, "not(");
        add_node(writing, levels - 1, names);
        break;
    case 1:
    case 2:
        add(writing->line, "%s", ANY_OF(writing->random, joins));
        add_node(writing, levels - 1, names);
        add(writing->line, ", ");
        add_node(writing, levels - 1, names);
        break;
    default:
        writing->names[writing->open] =
            one_in(writing->random, 5) ? (one_in(writing->random, 2) ? "v3" : "v15") : any_name(writing->random);
        add(writing->line, "%s%s, ", ANY_OF(writing->random, quantifiers), writing->names[writing->open++]);
        add_node(writing, levels - 1, names - 1);
        writing->open--;
    }
    add(writing->line, ")");
}

/* A question, at times with about 100 nodes, or far more. */
static void add_question(struct random *random, struct any_line *line)
{
    struct writing writing = {.random = random, .line = line};
    size_t chain = one_in(random, 25) ? 97 + below(random, one_in(random, 3) ? 900 : 5) : 0;

    for (size_t i = 0; i < chain; i++)
        add(line, "not(");
    add_node(&writing, chain > 0 ? 0 : below(random, 5), is_large() ? 1 : 2);
    for (size_t i = 0; i < chain; i++)
        add(line, ")");
}

static void make_name_line(struct random *random, struct any_line *line)
{
    start(line, "question ");
    add(line, "%s:%s", any_name(random), one_in(random, 2) ? " " : "");
    add_question(random, line);
}

static void add_options(struct random *random, struct any_line *line)
{
    if (is_large() || !one_in(random, 12)) {
        add(line, " within ");
        if (!is_large() && one_in(random, 20))
            add(line, "%s", odd_number_text(random));
        else
            add(line, "%u", (unsigned)below(random, one_in(random, 3) ? 12 : 2000));
    }
    if (one_in(random, 3))
        add(line, " unlisted");
    if (one_in(random, 40))
        add(line, " unlisted");
}

static void make_ask_line(struct random *random, struct any_line *line)
{
    size_t cells = one_in(random, 20) ? below(random, 9) : 3;

    start(line, "ask ");
    if (desk.question_count > 0 && one_in(random, 3))
        add(line, "%s", desk.questions[below(random, desk.question_count)].name);
    else if (one_in(random, 20))
        add(line, "%s", any_name(random));
    else
        add_question(random, line);
    for (; cells > 0; cells--)
        add_cell(random, line, one_in(random, 60));
    add_options(random, line);
}

/* A command of one word, or of two. */
static void make_plain_line(struct random *random, struct any_line *line)
{
    static const char *const words[] = {"census", "census", "show", "show",   "questions",
                                        "help",   "help ",  "?",    "forget", "quit"};
    const char *word = ANY_OF(random, words);

    start(line, word);
    if (strcmp(word, "show") == 0 && one_in(random, 2)) {
        add(line, " ");
        add_sheet(random, line, true);
    }
    if (strcmp(word, "forget") == 0 && desk.question_count > 0 && one_in(random, 2))
        add(line, " %s", desk.questions[below(random, desk.question_count)].name);
    if (word[0] == '?' || strcmp(word, "help ") == 0)
        add(line, "%u", (unsigned)below(random, 60));
    if (one_in(random, 8))
        add(line, " %s", any_name(random));
}

static void make_card_line(struct random *random, struct any_line *line)
{
    bool saves = one_in(random, 2);

    start(line, saves ? "save " : "load ");
    if (one_in(random, 12))
        return;
    add(line, "%s", saves ? file_to_save(random) : file_to_load(random));
}

void make_large_line(struct random *random, struct any_line *line)
{
    start(line, "load ");
    add(line, "%s", file_of_one_mark(random));
}

static void make_other_line(struct random *random, struct any_line *line)
{
    static const char *const texts[] = {"", "  ", "# hangs 5", "lamp", "enter", "ask", "fill", "take", "5", "(", "new"};

    start(line, ANY_OF(random, texts));
}

void make_line(struct random *random, struct any_line *line)
{
    static void (*const makers[])(struct random *, struct any_line *) = {
        make_sheet_line, make_row_line,  make_row_line,   make_row_line,   make_row_line,  make_row_line,
        make_row_line,   make_fill_line, make_fill_line,  make_fill_line,  make_ask_line,  make_ask_line,
        make_ask_line,   make_ask_line,  make_ask_line,   make_ask_line,   make_ask_line,  make_name_line,
        make_name_line,  make_name_line, make_plain_line, make_plain_line, make_other_line};
    size_t count = sizeof makers / sizeof *makers, choice = below(random, count + 4);

    if (desk.plot.header.relations == 0 && one_in(random, 6))
        make_sheet_line(random, line);
    else if (choice < count)
        makers[choice](random, line);
    else if (choice < count + 2)
        start(line, one_in(random, 6) ? "take" : "take back");
    else if (one_in(random, 12))
        start(line, one_in(random, 3) ? "new plot" : "new");
    else
        make_card_line(random, line);
    if (one_in(random, 30))
        add(line, " # a comment");
    if (one_in(random, 40))
        add(line, "\r");
}
