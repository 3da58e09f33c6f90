#include "desk.h"
#include "question.h"
#include "refusal.h"
#include "sheets.h"

#include <string.h>

static command start_anew, help;

static const struct {
    const char *name;
    command *run; /* null ends the desk */
    const char *usage;
    const char *does;
} commands[] = {
    {"sheet", make_sheet, "sheet NAME COLUMN..", "a new sheet with these columns, 1 to 6"},
    {"enter", enter, "[enter] SHEET CELL..", "a row: 201 is a value, m4 is mark 4, - is a blank"},
    {"fill", fill, "fill MARK CELL", "puts a value or a mark wherever the mark stands"},
    {"take", take_back, "take back", "takes the latest fill back"},
    {"census", census, "census", "the marks that stand, and in how many cells"},
    {"show", show, "show [SHEET]", "the sheets as tables"},
    {"question", name_question, "question NAME: QUESTION", "gives a question a name"},
    {"ask", ask, "ask QUESTION CELL..", "asks a question, in words or by its name, of a row"},
    {"questions", questions, "questions", "those that have names, and those asked so far"},
    {"forget", forget, "forget [NAME]", "those asked so far, or the one with this name"},
    {"load", load, "load FILE", "a plot from a card; names stay if the sheets are alike"},
    {"save", save, "save FILE", "the plot as a card, which has no names"},
    {"new", start_anew, "new", "forgets everything"},
    {"help", help, "help [WORD]", "this, a command, or what a refusal's number means"},
    {"quit", NULL, "quit", "ends, as the end of input does"},
};

enum { COMMANDS = sizeof commands / sizeof *commands };

static const char more_help[] = "A SHEET is a name or a number from 0. A blank gets a mark of its own, above all\n"
                                "others. After the row that is asked about may come \"within 100\", the most looks\n"
                                "(1000000 if it is left out), and \"unlisted\", to ask without a working list.\n"
                                "A question: in(SHEET, TERM, ..)  equal(TERM, TERM)  not(Q)  and(Q, Q)  or(Q, Q)\n"
                                "  some(NAME, Q)  every(NAME, Q)\n"
                                "  It is plain if it has neither not nor every.\n"
                                "A term: a value; v0 for the first cell of the row asked about, v1 for the\n"
                                "  second; a NAME after some or every, which takes each value of the plot, marks\n"
                                "  too, then each value that the question names.\n"
                                "What follows a # is not read. A line that is refused changes nothing.\n";

void desk_start(struct desk *desk, FILE *out)
{
    memset(desk, 0, sizeof *desk);
    desk->out = out;
}

static bool start_anew(struct desk *desk, struct line *line)
{
    if (!take_end(line))
        return false;
    desk_start(desk, desk->out);
    fputs("a new plot, without sheets\n", desk->out);
    return true;
}

static void say_usage(FILE *out, size_t i)
{
    fprintf(out, "  %-24s %s\n", commands[i].usage, commands[i].does);
}

/* The index of a command, or COMMANDS if the word is no command. */
static size_t find_command(struct word word)
{
    size_t i = 0;

    while (i < COMMANDS && !word_is(word, commands[i].name))
        i++;
    return i;
}

static bool help(struct desk *desk, struct line *line)
{
    uint64_t number;

    if (at_end(line)) {
        for (size_t i = 0; i < COMMANDS; i++)
            say_usage(desk->out, i);
        fputs(more_help, desk->out);
        return true;
    }
    struct word word = take_word(line);
    size_t i = find_command(word);
    const char *text = word_number(word, 0, UINT16_MAX, &number) ? meaning((uint32_t)number) : NULL;
    if (i == COMMANDS && !text)
        return expected(line, word.at, "a command or the number of a refusal");
    if (!take_end(line))
        return false;
    if (text)
        fprintf(desk->out, "%u: %s\n", (unsigned)number, text);
    else
        say_usage(desk->out, i);
    return true;
}

bool is_command(struct word word)
{
    return find_command(word) < COMMANDS;
}

/* Copies a line as far as a comment; false if it has a control byte before that. */
static bool copy_line(const char *bytes, size_t length, char text[LINE_ROOM], struct line *line)
{
    size_t i = 0;

    for (; i < length && bytes[i] != '#'; i++)
        if (is_control(bytes[i]))
            return refuse(line, i, 0, "a control byte, 0x%02X", (unsigned)(unsigned char)bytes[i]);
    memcpy(text, bytes, i);
    text[i] = '\0';
    return true;
}

/* Names are in letters from a to z. A file's name may have any others. */
static bool test_letters(struct line *line)
{
    for (size_t i = line->at; line->text[i]; i++)
        if ((unsigned char)line->text[i] >= 0x80)
            return expected(line, i, "letters from a to z, digits and signs");
    return true;
}

/* Finds the command, or a row that starts with its sheet; false if the line is refused. */
static bool run_line(struct desk *desk, struct line *line, bool *quit)
{
    if (at_end(line))
        return true;
    line->start = line->at;
    if (next_is(line, '?')) {
        line->at++;
        return help(desk, line);
    }
    struct word word = take_word(line);
    if (!word_is(word, "load") && !word_is(word, "save") && !test_letters(line))
        return false;
    size_t i = find_command(word);
    if (i < COMMANDS && commands[i].run)
        return commands[i].run(desk, line);
    if (i < COMMANDS)
        return *quit = take_end(line);
    if (find_sheet(&desk->plot, word) == NO_SHEET)
        return find_question(desk, word)
                   ? expected(line, word.at, "\"ask\" before the name of a question")
                   : expected(line, word.at, "a command or a sheet's name (help lists the commands)");
    line->at = word.at;
    return enter(desk, line);
}

static void say_fault(FILE *out, const struct fault *fault)
{
    if (fault->refusal)
        fprintf(out, "refused %u, column %zu: %s\n", (unsigned)fault->refusal, fault->at + 1, fault->text);
    else
        fprintf(out, "not done, column %zu: %s\n", fault->at + 1, fault->text);
}

enum line_end desk_line(struct desk *desk, const char *bytes, size_t length)
{
    char text[LINE_ROOM] = "";
    struct line line = line_of(text);
    bool quit = false;

    if (length > 0 && length <= LINE_ROOM && bytes[length - 1] == '\r')
        length--;
    if (length >= LINE_ROOM) {
        refuse(&line, LINE_ROOM - 1, 0, "a line has at most %d bytes", LINE_ROOM - 1);
    } else if (copy_line(bytes, length, text, &line) && run_line(desk, &line, &quit)) {
        return quit ? LINE_QUIT : LINE_DONE;
    }
    say_fault(desk->out, &line.fault);
    return LINE_REFUSED;
}
