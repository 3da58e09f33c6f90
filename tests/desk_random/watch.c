#include "watch.h"
#include "card_files.h"
#include "desk/refusal.h"
#include "lines.h"
#include "tally.h"
#include "typing/typing.h"

#include <stdlib.h>
#include <string.h>

/* The desk before the line that is typed. */
static const struct desk *before;

static bool is_same_state(const struct plot *a, const struct plot *b)
{
    return memcmp(&a->header, &b->header, sizeof a->header) == 0 && memcmp(a->words, b->words, sizeof a->words) == 0 &&
           a->log_used == b->log_used && a->fill_count == b->fill_count;
}

/* An answer is whole lines without control bytes. */
static bool is_clean(const char *answer)
{
    size_t length = strlen(answer);

    for (size_t i = 0; i < length; i++)
        if (is_control(answer[i]) && answer[i] != '\n')
            return false;
    return length == 0 || answer[length - 1] == '\n';
}

static bool is_sound(void)
{
    uint32_t counts[PLOTASK_MARKS], count;

    return plotask_null_counts(PLOTASK_CONST_HEADER(&desk.plot.header), desk.plot.words, PLOTASK_WORDS, counts,
                               PLOTASK_MARKS, &count) == PLOTASK_DONE;
}

/* A refusal is one line with a column of the line that was typed and, if it has a number, with its meaning. */
static bool is_refusal(const char *answer, size_t length, uint32_t *number)
{
    char *end;

    *number = NOT_DONE;
    if (strncmp(answer, "refused ", 8) == 0) {
        *number = (uint32_t)strtoul(answer + 8, &end, 10);
        const char *text = *number == PLOTASK_UNBOUND_VARIABLE ? "a variable " : meaning(*number);
        if (*number >= NUMBERS || !text || !strstr(end, text))
            return false;
    } else if (strncmp(answer, "not done", 8) == 0) {
        end = (char *)answer + 8;
    } else {
        return false;
    }
    if (strncmp(end, ", column ", 9) != 0)
        return false;
    unsigned long column = strtoul(end + 9, &end, 10);
    return column >= 1 && column <= length + 1 && strncmp(end, ": ", 2) == 0 && strchr(answer, '\n')[1] == '\0';
}

static bool holds_cell(const uint32_t *cells, size_t count, uint32_t cell)
{
    for (size_t i = 0; i < count; i++)
        if (cells[i] == cell)
            return true;
    return false;
}

/* A mark that no cell holds, that no fill taken back brings back, and that stands in no row asked about. */
static bool is_fresh(uint32_t mark)
{
    const struct plot *plot = &before->plot;

    if (holds_cell(plot->words, plot->header.used, PLOTASK_MARK(mark)))
        return false;
    for (size_t i = 0; i < plot->fill_count; i++)
        if (plot->fills[i].mark == mark || plot->fills[i].cell == PLOTASK_MARK(mark))
            return false;
    for (size_t i = 0; i < before->asked_count; i++)
        if (holds_cell(before->asked[i].cells, before->asked[i].cell_count, PLOTASK_MARK(mark)))
            return false;
    return true;
}

/* A row's answer says which marks its blanks got. */
static bool are_blanks_fresh(const char *answer)
{
    const char *end = strchr(answer, '\n'), *at = strstr(answer, "; the blank");

    if (!at || at > end)
        return true;
    meet(MET_BLANK_AT_RANDOM);
    for (at = strstr(at, " m"); at && at < end; at = strstr(at + 1, " m"))
        if (!is_fresh((uint32_t)strtoul(at + 2, NULL, 10)))
            return false;
    return true;
}

/* After a fill the desk says that no verdict was unsettled, if one has been asked, and nothing that cannot be. */
static bool is_fill_told(const char *answer)
{
    bool said = strstr(answer, "no verdict was unsettled\n") != NULL;

    if (desk.asked_count > 0)
        meet(strstr(answer, "\nbecame settled: ") ? MET_SETTLED_AT_RANDOM : MET_ASKED_AT_FILL);
    return said == (desk.asked_count > 0) && !strstr(answer, "UNSETTLED") && !strstr(answer, "TAKES MORE LOOKS");
}

/* What else has to hold after an accepted line; null, or what does not. */
static const char *accepted_fault(enum typed_command command, const char *answer)
{
    switch (command) {
    case TYPED_SHEET:
        return desk.plot.header.relations == before->plot.header.relations + 1 ? NULL : "there is no new sheet";
    case TYPED_ENTER:
        if (desk.plot.header.used <= before->plot.header.used)
            return "there is no new row";
        return are_blanks_fresh(answer) ? NULL : "a blank got a mark that is not fresh";
    case TYPED_FILL:
        return is_fill_told(answer) ? NULL : "the answer to a fill";
    case TYPED_TAKE:
        return desk.plot.fill_count + 1 == before->plot.fill_count ? NULL : "there is no fill less";
    case TYPED_ASK:
        return desk.asked_count > 0 ? NULL : "the question is not kept";
    case TYPED_LOAD:
        return desk.asked_count + desk.plot.fill_count + desk.plot.log_used == 0 ? NULL : "the old plot is not gone";
    case TYPED_FORGET:
        return desk.asked_count + desk.question_count <= before->asked_count + before->question_count &&
                       is_same_state(&desk.plot, &before->plot)
                   ? NULL
                   : "forgetting does something else";
    case TYPED_NAME:
    case TYPED_NEW:
        return NULL;
    default:
        return is_as_noted() ? NULL : "a line that only asks for something changed the desk";
    }
}

/* Null, or what does not hold after a line. */
static const char *fault_of(enum typed_command command, size_t length, enum line_end end)
{
    const char *answer = last_answer();
    uint32_t number = 0;

    if (!is_clean(answer))
        return "the answer has a control byte, or no line feed at its end";
    if (desk.plot.header.relations > 0 && !is_sound())
        return "the plot is not sound";
    if (end == LINE_REFUSED && !is_as_noted())
        return "the refused line changed the desk";
    if (end == LINE_REFUSED && !is_refusal(answer, length, &number))
        return "the refusal says too little";
    count_line(command, number);
    if (end == LINE_REFUSED)
        return NULL;
    if ((end == LINE_QUIT) != (command == TYPED_QUIT))
        return "quit, and no other command, ends the desk";
    return accepted_fault(command, answer);
}

/* What is special about a line's bytes. */
static void meet_bytes(const struct any_line *line)
{
    bool control = false, high = false;

    for (size_t i = 0; i < line->length; i++) {
        control |= is_control(line->bytes[i]);
        high |= (unsigned char)line->bytes[i] >= 0x80;
    }
    if (line->length >= LINE_ROOM - 1)
        meet(line->length >= LINE_ROOM ? MET_LONG_LINE : MET_FULL_LINE);
    if (control)
        meet(MET_CONTROL_BYTE);
    if (high)
        meet(MET_HIGH_BYTE);
}

static bool type_watched(const struct any_line *line, enum line_end *end)
{
    enum typed_command command = command_of(line->bytes, line->length);

    meet_bytes(line);
    before = note_desk();
    *end = type_bytes(line->bytes, line->length);
    const char *fault = fault_of(command, line->length, *end);
    if (!fault)
        return true;
    printf("does not hold: %s\n", fault);
    print_bytes("typed:   ", line->bytes, line->length);
    print_bytes("answered:", last_answer(), strlen(last_answer()));
    return false;
}

static bool type_text(const char *text, enum line_end *end)
{
    static struct any_line line;

    line.length = strlen(text);
    memcpy(line.bytes, text, line.length);
    return type_watched(&line, end);
}

/* A fill that is accepted and taken back leaves the plot and all answers as they were. */
static bool fill_and_take_back(const struct any_line *line)
{
    static struct plot plot;
    static char list[64 * LINE_ROOM];
    enum line_end end;

    plot = desk.plot;
    if (!type_text("questions", &end))
        return false;
    snprintf(list, sizeof list, "%s", last_answer());
    if (!type_watched(line, &end))
        return false;
    if (end != LINE_DONE)
        return true;
    if (!type_text("take back", &end) || !type_text("questions", &end))
        return false;
    meet(MET_FILLED_AND_BACK);
    if (is_same_state(&plot, &desk.plot) && strcmp(list, last_answer()) == 0)
        return true;
    print_bytes("filled and taken back, but the desk is another:", line->bytes, line->length);
    return false;
}

static bool is_file_line(enum typed_command command)
{
    return command == TYPED_LOAD || command == TYPED_SAVE;
}

/* A line, damaged or not. If damage made it read or write any other file than those of the test, it is left as it was. */
static void make_any_line(struct random *random, struct any_line *line)
{
    static struct any_line whole;

    make_line(random, &whole);
    *line = whole;
    if (!one_in(random, 4))
        return;
    for (size_t damages = 1 + one_in(random, 4); damages > 0; damages--)
        damage_line(random, line);
    if (is_file_line(command_of(line->bytes, line->length)) && !names_card_file(line->bytes, line->length))
        *line = whole;
}

/* The start of a round: no sheets, a few of them, or a plot without room and a fill after which the log has none. */
static bool type_start(struct random *random)
{
    static struct any_line line;
    enum line_end end;

    start_desk();
    forget_saved();
    if (one_in(random, 16)) {
        make_large_line(random, &line);
        return type_watched(&line, &end) && type_text(one_in(random, 2) ? "fill m1 m2" : "fill m2 m1", &end);
    }
    for (size_t sheets = one_in(random, 4) ? 0 : 1 + below(random, one_in(random, 4) ? 12 : 3); sheets > 0; sheets--) {
        make_sheet_line(random, &line);
        if (!type_watched(&line, &end))
            return false;
    }
    return true;
}

bool type_random_lines(struct random *random)
{
    static struct any_line line;
    enum line_end end;

    if (!type_start(random))
        return false;
    for (size_t lines = 80 + below(random, 320); lines > 0; lines--) {
        bool twice = one_in(random, 12);
        if (twice)
            make_fill_line(random, &line);
        else
            make_any_line(random, &line);
        if (twice ? !fill_and_take_back(&line) : !type_watched(&line, &end))
            return false;
    }
    return true;
}
