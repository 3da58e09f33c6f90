/*
 * Puts the boxes of docs/VERDICTS.md through plotask: verdicts page program. The boxes are sessions at the desk. Here
 * their typed lines are read without the desk: the plot is kept by the second implementation's calls, each question is
 * asked of the program and of the library, and again after every change. The page's answers have to be what comes out.
 *
 *   ```desk
 *   > ask in(store, v0) 201   # a student says false             a typed line; what the student says has to be wrong
 *   unknown, 2 looks: some way to ink the marks makes it false   the answer, up to the next typed line
 *   ```
 */
#include "page/comment.h"
#include "page/typed.h"
#include "support/checks.h"

#include <stdio.h>
#include <string.h>

/* A page on which fewer questions are asked has lost some. */
enum { ASKS = 35 };

/* The page, as far as it has been read. */
struct page {
    FILE *file;
    unsigned line; /* the number of the line read last */
    char text[PAGE_LINE];
    struct session session; /* all boxes are one */
    unsigned asks;
    unsigned typed;           /* the number of the typed line that is being answered; 0 if none is */
    struct expected expected; /* what should answer it */
    size_t answered;          /* the lines that have answered it */
    bool is_wrong;            /* it could not be obeyed, or a line that answered it is not as expected */
};

/* Reads the next line; false at the end of the page. */
static bool next_line(struct page *page)
{
    if (!fgets(page->text, PAGE_LINE, page->file))
        return false;
    page->line++;
    size_t length = strcspn(page->text, "\n");
    if (page->text[length] == '\0' && !feof(page->file)) {
        printf("line %u: it is too long\n", page->line);
        check(false);
        for (int sign = 0; sign != '\n' && sign != EOF;)
            sign = getc(page->file);
    }
    page->text[length] = '\0';
    return true;
}

/* Whether the answer begins with all of what the student says: a verdict alone is right whatever the looks. */
static bool is_right(const char *student, const char *answer)
{
    size_t length = strlen(student);

    return strncmp(student, answer, length) == 0 && (answer[length] == ',' || answer[length] == ':');
}

static void check_student(const struct page *page, const char *student)
{
    const char *fault = NULL;

    if (!page->expected.is_ask)
        fault = "a student, but no question";
    else if (!is_answer_text(student))
        fault = "what the student says cannot be read";
    else if (is_right(student, page->expected.lines[0].text))
        fault = "the student is right";
    if (fault)
        printf("line %u: %s\n", page->line, fault);
    check(!fault);
}

/* Obeys a typed line, and makes ready for its answer. */
static void begin_answer(struct page *page)
{
    char *line = page->text + 1;
    const char *student = student_in(cut_comment(line));
    const char *fault = obey(&page->session, line, &page->expected);

    if (fault)
        printf("line %u: %s\n", page->line, fault);
    page->typed = page->line;
    page->answered = 0;
    page->is_wrong = fault != NULL;
    page->asks += page->expected.is_ask;
    if (student && !fault)
        check_student(page, student);
}

/* Whether a line says that the typed line was not obeyed. */
static bool is_refusing(const char *text)
{
    return strncmp(text, "refused ", 8) == 0 || strncmp(text, "not done", 8) == 0;
}

/* Compares a line of the answer with the next one that is expected; returns whether it may stand. */
static bool may_stand(const struct page *page)
{
    if (page->answered == page->expected.count) {
        printf("line %u: the page says '%s', but the answer has ended\n", page->line, page->text);
        return false;
    }
    const struct expected_line *line = &page->expected.lines[page->answered];
    if (!is_expected(line, page->text)) {
        printf("line %u: the page says '%s', not '%s%s'\n", page->line, page->text, line->text,
               line->is_start ? ".." : "");
        return false;
    }
    return true;
}

/* Takes a line of the answer. After one that is wrong, the rest of the answer is passed over. */
static void take_answer(struct page *page)
{
    if (page->is_wrong)
        return;
    if (page->expected.is_checked) {
        page->is_wrong = !may_stand(page);
        page->answered++;
    } else if (is_refusing(page->text)) {
        printf("line %u: the page says '%s', but nothing is to be refused\n", page->line, page->text);
        page->is_wrong = true;
    }
}

/* Counts the answer to the last typed line as a check. */
static void end_answer(struct page *page)
{
    const struct expected *expected = &page->expected;

    if (page->typed == 0)
        return;
    if (!page->is_wrong && expected->is_checked && page->answered < expected->count) {
        printf("line %u: the answer lacks '%s'\n", page->typed, expected->lines[page->answered].text);
        page->is_wrong = true;
    }
    if (page->is_wrong || (expected->is_checked && expected->count > 0))
        check(!page->is_wrong);
    page->typed = 0;
}

/* Checks a box, up to its closing fence. */
static void check_box(struct page *page)
{
    while (next_line(page)) {
        bool is_typed = strncmp(page->text, "> ", 2) == 0 || strcmp(page->text, ">") == 0;
        bool is_fence = strcmp(page->text, "```") == 0;
        if (is_typed || is_fence)
            end_answer(page);
        if (is_fence)
            return;
        if (is_typed) {
            begin_answer(page);
        } else if (page->typed != 0) {
            take_answer(page);
        } else {
            printf("line %u: it answers nothing\n", page->line);
            check(false);
        }
    }
    end_answer(page);
    printf("line %u: the last box has no closing fence\n", page->line);
    check(false);
}

int main(int count, char **arguments)
{
    static struct page page;

    if (count != 3) {
        fprintf(stderr, "usage: verdicts page program\n");
        return 2;
    }
    page.file = fopen(arguments[1], "r");
    if (!page.file) {
        perror(arguments[1]);
        return 2;
    }
    page.session.program = arguments[2];
    while (next_line(&page))
        if (strcmp(page.text, "```desk") == 0)
            check_box(&page);
    fclose(page.file);
    if (page.asks < ASKS) {
        printf("the page asks %u questions, not %u\n", page.asks, (unsigned)ASKS);
        check(false);
    }
    return finish_checks();
}
