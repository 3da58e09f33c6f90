#include "asked.h"
#include "both_ways.h"
#include "reference/reference.h"

#include <stdio.h>
#include <string.h>

/* The row with the fills that have been made in it: those since it was typed that have not been taken back. */
static struct cells row_now(const struct session *session, const struct asked *asked)
{
    struct cells row = asked->row;

    for (size_t i = asked->fills_before; i < session->fill_count; i++)
        fill_cells(&row, session->fills[i].mark, session->fills[i].cell);
    return row;
}

static const char *find_answer(const struct session *session, const struct question *question, const struct cells *row,
                               uint32_t allowance, struct answer *answer)
{
    static uint8_t card[PLOTASK_CARD_BYTES];
    uint32_t card_length = 0;
    uint32_t number =
        ref_encode(session->header, HEADER_WORDS, session->words, MOST_WORDS, card, sizeof card, &card_length);

    if (number != 0) { /* a plot without sheets has no card, and every call refuses it by this number */
        *answer = refusal(number);
        return NULL;
    }
    const struct input input = {card, card_length, question->words, question->length, row->cell, row->count, allowance};
    return ask_both_ways(session->program, &input, answer);
}

/* Whether two are the same question of the same row, as it was typed and as it is now, in the same manner. */
static bool same_asked(const struct session *session, const struct asked *left, const struct asked *right)
{
    struct cells left_now = row_now(session, left), right_now = row_now(session, right);

    return strcmp(left->question.label, right->question.label) == 0 &&
           left->manner.allowance == right->manner.allowance && left->manner.is_unlisted == right->manner.is_unlisted &&
           same_cells(&left->row, &right->row) && same_cells(&left_now, &right_now);
}

/* Drops what was asked at a place. */
static void drop_asked(struct session *session, size_t place)
{
    session->asked_count--;
    memmove(&session->asked[place], &session->asked[place + 1],
            (session->asked_count - place) * sizeof *session->asked);
}

const char *ask_question(struct session *session, const struct question *question, const struct cells *row,
                         const struct manner *manner, struct answer *answer)
{
    static struct asked asked;
    const char *fault = find_answer(session, question, row, manner->allowance, answer);

    if (fault || is_refused(answer))
        return fault;
    asked = (struct asked){*question, *row, session->fill_count, *manner, *answer, *answer};
    for (size_t i = session->asked_count; i > 0; i--)
        if (same_asked(session, &session->asked[i - 1], &asked)) {
            asked.fills_before = session->asked[i - 1].fills_before;
            drop_asked(session, i - 1);
        }
    if (session->asked_count == MOST_QUESTIONS)
        return "there is no room for one more question asked";
    session->asked[session->asked_count++] = asked;
    return NULL;
}

const char *ask_again(struct session *session)
{
    for (size_t i = 0; i < session->asked_count; i++) {
        struct asked *asked = &session->asked[i];
        struct cells row = row_now(session, asked);
        asked->before = asked->answer;
        const char *fault = find_answer(session, &asked->question, &row, asked->manner.allowance, &asked->answer);
        if (fault)
            return fault;
    }
    return NULL;
}

void drop_repeated(struct session *session)
{
    for (size_t later = 1; later < session->asked_count; later++)
        for (size_t place = 0; place < later; place++)
            if (same_asked(session, &session->asked[place], &session->asked[later])) {
                session->asked[later].fills_before = session->asked[place].fills_before;
                drop_asked(session, place--);
                later--;
            }
}

static void forget_asked(struct session *session, const char *label)
{
    for (size_t i = session->asked_count; i > 0; i--)
        if (strcmp(session->asked[i - 1].question.label, label) == 0)
            drop_asked(session, i - 1);
}

/* The place of the question that has this name; the place after the last one if none has it. */
static size_t place_of_name(const struct session *session, const char *name)
{
    size_t place = 0;

    while (place < session->named_count && strcmp(session->named[place].label, name) != 0)
        place++;
    return place;
}

static bool same_question(const struct question *left, const struct question *right)
{
    return left->length == right->length && memcmp(left->words, right->words, left->length * sizeof *left->words) == 0;
}

bool name_question(struct session *session, const struct question *question)
{
    size_t place = place_of_name(session, question->label);

    if (place == MOST_QUESTIONS)
        return false;
    if (place == session->named_count)
        session->named_count++;
    else if (!same_question(&session->named[place], question))
        forget_asked(session, question->label);
    session->named[place] = *question;
    return true;
}

const struct question *question_by_name(const struct session *session, const char *name)
{
    size_t place = place_of_name(session, name);

    return place < session->named_count ? &session->named[place] : NULL;
}

/* Adds cells, each after a blank, to a text. */
static void add_cells(char text[PAGE_LINE], const struct cells *cells)
{
    char cell[CELL_BYTES];

    for (size_t i = 0; i < cells->count; i++) {
        size_t length = strlen(text);
        write_cell(cells->cell[i], cell);
        snprintf(text + length, PAGE_LINE - length, " %s", cell);
    }
}

static void add_text(char text[PAGE_LINE], const char *more)
{
    size_t length = strlen(text);

    snprintf(text + length, PAGE_LINE - length, "%s", more);
}

void write_asked(const struct session *session, const struct asked *asked, char text[PAGE_LINE])
{
    struct cells row = row_now(session, asked);
    char within[32];

    strcpy(text, asked->question.label);
    add_cells(text, &row);
    if (asked->manner.allowance != ALLOWANCE) {
        snprintf(within, sizeof within, " within %u", (unsigned)asked->manner.allowance);
        add_text(text, within);
    }
    if (asked->manner.is_unlisted)
        add_text(text, " unlisted");
    if (!same_cells(&row, &asked->row)) {
        add_text(text, " (asked of");
        add_cells(text, &asked->row);
        add_text(text, ")");
    }
}
