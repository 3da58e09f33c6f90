#include "conversation.h"
#include "talk.h"
#include "typing/typing.h"

#include <string.h>

/* Some of these start alike, and some mean something elsewhere in a line. */
static const char *const sheet_names[] = {"hangs", "hang", "store", "s", "in", "abcdefghijklmnop",
                                          "a",     "ab",   "x",     "m", "s1", "within",
                                          "v",     "lamp", "V0",    "m_"};

enum { SHEET_NAMES = sizeof sheet_names / sizeof *sheet_names };

static bool type_sheets(struct talk *talk, const uint32_t *header)
{
    size_t name = below(talk->random, SHEET_NAMES);

    for (uint32_t sheet = 0; sheet < header[HEADER_RELATIONS]; sheet++) {
        start_line(talk, "sheet %s", sheet_names[(name + 5 * sheet) % SHEET_NAMES]);
        for (uint32_t column = 0; column < arity_of(header, sheet); column++)
            put(talk, " c%u", (unsigned)column);
        if (type_bytes(talk->line, talk->length) != LINE_DONE) {
            print_bytes("a sheet was refused:", talk->line, talk->length);
            return false;
        }
    }
    return true;
}

/* Types the rows of a plot. They are many, so only the answers are compared here, and the plot at the end. */
static bool type_rows(struct talk *talk, const struct any_plot *plot)
{
    static const bool no_blanks[CELLS_ROOM];
    struct any_cells cells;

    for (size_t at = 0; at < plot->header[HEADER_USED]; at += 1 + cells.length) {
        uint32_t sheet = plot->words[at];
        const char *name = desk.plot.sheets[sheet].name;
        cells.length = arity_of(plot->header, sheet);
        memcpy(cells.cells, plot->words + at + 1, cells.length * sizeof *cells.cells);
        if (one_in(talk->random, 3))
            start_line(talk, "enter %u", (unsigned)sheet);
        else
            start_line(talk, "%s", name);
        for (size_t i = 0; i < cells.length; i++)
            put_cell(talk, cells.cells[i]);
        account_row(&talk->account, name, sheet, &cells, no_blanks);
        type_bytes(talk->line, talk->length);
        if (strcmp(last_answer(), talk->account.answer) != 0) {
            print_bytes("typed:   ", talk->line, talk->length);
            print_bytes("answered:", last_answer(), strlen(last_answer()));
            return false;
        }
    }
    return true;
}

/* Some conversations are mostly about questions, and some about fills. */
enum manner { MIXED, QUESTIONING, FILLING };

static bool forget_questions(struct talk *talk)
{
    start_line(talk, "forget");
    account_forgotten(&talk->account);
    return type_accepted(talk);
}

static bool take_step(struct talk *talk, enum manner manner)
{
    struct random *random = talk->random;

    if (manner == QUESTIONING && !one_in(random, 16))
        return try_question(talk);
    if (manner == FILLING && one_in(random, 2))
        return one_in(random, 6) ? try_take_back(talk) : try_fill(talk);
    switch (below(random, 24)) {
    case 0:
    case 1:
        return try_row(talk);
    case 2:
    case 3:
    case 4:
    case 5:
    case 6:
    case 7:
        return try_fill(talk);
    case 8:
    case 9:
    case 10:
    case 11:
        return try_take_back(talk);
    case 12:
        start_line(talk, "questions");
        account_questions(&talk->account);
        return type_accepted(talk);
    case 13:
        return manner == QUESTIONING || !one_in(random, 4) || try_card(talk);
    case 14:
        return manner == QUESTIONING || !one_in(random, 6) || forget_questions(talk);
    default:
        return try_question(talk);
    }
}

static size_t count_marked(const struct any_plot *plot)
{
    size_t marked = 0;

    for (size_t i = 0; i < plot->header[HEADER_USED]; i++)
        marked += plot->words[i] > CONSTANTS;
    return marked;
}

/* A plot that a desk can hold. A few are full, or almost so, and their marks soon fill the log too. */
static void make_plot_to_type(struct talk *talk, struct any_plot *plot)
{
    bool full = one_in(talk->random, 20);

    do {
        talk->palette = make_palette(talk->random);
        make_plot(talk->random, &talk->palette, plot);
    } while (plot->header[HEADER_USED] > MOST_WORDS ||
             (full && (plot->header[HEADER_USED] < MOST_WORDS - 10 || count_marked(plot) < 1500)));
}

bool hold_conversation(struct random *random)
{
    static struct talk talk;
    static struct any_plot plot;
    enum manner manner = one_in(random, 12) ? QUESTIONING : MIXED;

    talk.random = random;
    make_plot_to_type(&talk, &plot);
    if (plot.header[HEADER_USED] > 1000)
        manner = FILLING;
    start_desk();
    open_account(&talk.account, plot.header);
    if (!type_sheets(&talk, plot.header) || !type_rows(&talk, &plot))
        return false;
    for (size_t steps = manner == QUESTIONING ? 150 : 20 + below(random, 60); steps > 0; steps--)
        if (!take_step(&talk, manner))
            return false;
    return true;
}
