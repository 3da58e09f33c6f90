#include "changes.h"
#include "asked.h"

static void expect_change(struct expected *expected, const struct session *session, const struct asked *asked,
                          const char *what)
{
    char label[PAGE_LINE], now[ANSWER_BYTES], before[ANSWER_BYTES];

    write_asked(session, asked, label);
    write_answer(&asked->answer, now);
    write_answer(&asked->before, before);
    expect_line(expected, "%s: %s: %s; before: %s", what, label, now, before);
}

const char *expect_settled(struct expected *expected, const struct session *session)
{
    size_t told = 0;

    for (size_t i = 0; i < session->asked_count; i++) {
        const struct asked *asked = &session->asked[i];
        if (same_verdict(&asked->answer, &asked->before))
            continue;
        if (is_refused(&asked->answer) || is_settled(&asked->before))
            return "a fill has unsettled a verdict";
        told++;
        expect_change(expected, session, asked,
                      is_refused(&asked->before) ? "now within its allowance" : "became settled");
    }
    if (session->asked_count > 0)
        expect_line(expected,
                    told ? "no verdict was unsettled" : "no question became settled, and no verdict was unsettled");
    return NULL;
}

size_t expect_changed(struct expected *expected, const struct session *session)
{
    size_t changed = 0;

    for (size_t i = 0; i < session->asked_count; i++) {
        const struct asked *asked = &session->asked[i];
        if (!same_verdict(&asked->answer, &asked->before)) {
            expect_change(expected, session, asked, "changed");
            changed++;
        }
    }
    return changed;
}
