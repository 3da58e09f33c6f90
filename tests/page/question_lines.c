#include "question_lines.h"
#include "asked.h"
#include "question.h"

#include <stdio.h>
#include <string.h>

/* A question in words, with its text as the label. */
static bool scan_worded(const char **at, const struct session *session, struct question *question)
{
    *at += strspn(*at, " \t");
    const char *start = *at;
    question->length = scan_question(at, &session->sheets, question->words);
    snprintf(question->label, PAGE_LINE, "%.*s", (int)(*at - start), start);
    return question->length > 0;
}

const char *obey_question(struct session *session, const char *rest, struct expected *expected)
{
    static struct question question;
    char name[NAME_BYTES];

    (void)expected;
    if (!scan_name(&rest, name) || !scan_sign(&rest, ':'))
        return "a question without a name";
    if (!scan_worded(&rest, session, &question) || !scan_end(&rest))
        return "a question that cannot be read";
    strcpy(question.label, name);
    return name_question(session, &question) ? NULL : "there is no room for one more question with a name";
}

/* A question in words, or the name of one. */
static bool scan_asked(const char **at, const struct session *session, struct question *question)
{
    const char *after_name = *at;
    char name[NAME_BYTES];

    if (!scan_name(&after_name, name))
        return false;
    if (after_name[strspn(after_name, " \t")] == '(')
        return scan_worded(at, session, question);
    const struct question *named = question_by_name(session, name);
    if (!named)
        return false;
    *question = *named;
    *at = after_name;
    return true;
}

/* `within N` and `unlisted`, up to the end of the line. Every question is asked both ways, whatever the line says. */
static bool scan_manner(const char *at, struct manner *manner)
{
    bool within = false;

    *manner = (struct manner){ALLOWANCE, false};
    while (!scan_end(&at)) {
        if (!within && scan_word(&at, "within")) {
            if (!scan_number(&at, &manner->allowance))
                return false;
            within = true;
        } else if (!manner->is_unlisted && scan_word(&at, "unlisted")) {
            manner->is_unlisted = true;
        } else {
            return false;
        }
    }
    return true;
}

const char *obey_ask(struct session *session, const char *rest, struct expected *expected)
{
    static struct question question;
    struct cells row;
    struct manner manner;
    struct answer answer;

    if (!scan_asked(&rest, session, &question))
        return "a question that cannot be read";
    if (!scan_cells(&rest, &row) || has_cell(&row, BLANK))
        return "a row that cannot be read";
    if (!scan_manner(rest, &manner))
        return "its end cannot be read";
    const char *fault = ask_question(session, &question, &row, &manner, &answer);
    if (fault)
        return fault;
    expect_answer(expected, &answer, is_plain(question.words, question.length));
    expected->is_ask = true;
    return NULL;
}
