#include "typed.h"
#include "plot_lines.h"
#include "question_lines.h"

#include <string.h>

static const char *obey_new(struct session *session, const char *rest, struct expected *expected)
{
    (void)expected;
    if (!scan_end(&rest))
        return "`new` is not alone";
    start_session(session);
    return NULL;
}

/* A line that only shows something. */
static const char *pass_over(struct session *session, const char *rest, struct expected *expected)
{
    (void)session;
    (void)rest;
    (void)expected;
    return NULL;
}

struct command {
    const char *name;
    bool is_checked;
    const char *(*obey)(struct session *session, const char *rest, struct expected *expected);
};

static const struct command commands[] = {
    {"new", false, obey_new},       {"sheet", false, obey_sheet},       {"fill", true, obey_fill},
    {"take", true, obey_take_back}, {"question", false, obey_question}, {"ask", true, obey_ask},
    {"show", false, pass_over},     {"census", false, pass_over},       {"questions", false, pass_over},
    {"help", false, pass_over},
};

const char *obey(struct session *session, const char *line, struct expected *expected)
{
    char name[NAME_BYTES];

    expected->is_checked = false;
    expected->is_ask = false;
    expected->count = 0;
    if (scan_end(&line)) { /* nothing answers an empty line */
        expected->is_checked = true;
        return NULL;
    }
    if (scan_sign(&line, '?'))
        return NULL;
    if (!scan_name(&line, name))
        return "it starts with no name";
    for (size_t i = 0; i < sizeof commands / sizeof *commands; i++) {
        if (strcmp(commands[i].name, name) == 0) {
            expected->is_checked = commands[i].is_checked;
            return commands[i].obey(session, line, expected);
        }
    }
    uint32_t sheet = sheet_by_name(&session->sheets, name);
    if (sheet == session->sheets.count)
        return "it starts with no command and no sheet";
    expected->is_checked = true;
    return obey_row(session, sheet, line, expected);
}
