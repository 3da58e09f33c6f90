#include "asked.h"
#include "cells.h"
#include "counted.h"
#include "question.h"
#include "refusal.h"

#include <string.h>

/* A question as it was typed: with a name, or in words. */
struct typed {
    struct tree tree;
    size_t at;                    /* in the line */
    const struct question *named; /* null if it is in words */
};

struct question *find_question(struct desk *desk, struct word name)
{
    for (size_t i = 0; i < desk->question_count; i++)
        if (word_is(name, desk->questions[i].name))
            return &desk->questions[i];
    return NULL;
}

/* Replaces the words of a question from an index on with numbers that are never refused. Kinds and children stay. */
static void make_harmless(uint32_t *words, size_t from, size_t count)
{
    for (size_t i = from; i < count; i++) {
        uint32_t kind = words[i - i % PLOTASK_NODE_WORDS];
        bool variable = (kind == PLOTASK_SOME || kind == PLOTASK_EVERY) && i % PLOTASK_NODE_WORDS == 1;
        if (i % PLOTASK_NODE_WORDS > 0 && (kind == PLOTASK_STANDS || kind == PLOTASK_EQUAL || variable))
            words[i] = 0;
    }
}

/*
 * The index of the word for which a question is refused. plotask checks the words in order, and returns only a number.
 * So the words after an index are made harmless: if the number stays the same, the fault is at that index or before it.
 * The replaced terms change the values of some and every too, but the words are checked before any value is taken.
 */
static size_t word_at_fault(const struct plot *plot, const struct asked *asked)
{
    static struct asked probe;
    size_t low = 0, high = asked->word_count - 1;

    while (low < high) {
        size_t middle = low + (high - low) / 2;
        probe = *asked;
        probe.allowance = 0;
        make_harmless(probe.words, middle + 1, probe.word_count);
        if (ask_plot(plot, &probe, probe.cells).refusal == asked->answer.refusal)
            high = middle;
        else
            low = middle + 1;
    }
    return low;
}

/* What a refusal means at a word: 24 has two causes, one for a variable after some or every and one for a term. */
static const char *meaning_at(const struct tree *tree, size_t word, uint32_t refusal)
{
    uint32_t kind = tree->words[word - word % PLOTASK_NODE_WORDS];

    if (refusal != PLOTASK_UNBOUND_VARIABLE)
        return meaning(refusal);
    return kind == PLOTASK_SOME || kind == PLOTASK_EVERY
               ? "a variable above v15, or more than 16 names and variables within one another"
               : "a variable without a value: the row asked about has no cell for it, and no some or every names it";
}

/* Refuses a question for one of its words. If it is asked by its name, the fault says which word that is. */
static bool refuse_word(struct line *line, const struct typed *typed, size_t word, uint32_t refusal)
{
    const char *text = meaning_at(&typed->tree, word, refusal);

    if (!typed->named)
        return refuse(line, typed->tree.at[word], refusal, "%s", text);
    struct line named = {.text = typed->named->text, .at = typed->tree.at[word]};
    struct word found = take_word(&named);
    bool cut = found.length > SHOWN_BYTES;
    return refuse(line, typed->at, refusal, "%.*s%s in %s: %s", (int)(cut ? SHOWN_BYTES : found.length), found.start,
                  cut ? ".." : "", typed->named->name, text);
}

static bool refuse_question(const struct plot *plot, struct line *line, const struct typed *typed,
                            const struct asked *asked)
{
    switch (asked->answer.refusal) {
    case PLOTASK_BAD_QUERY_LENGTH:
        return refuse_word(line, typed, PLOTASK_QUERY_WORDS, asked->answer.refusal);
    case PLOTASK_BAD_NODE:
    case PLOTASK_UNBOUND_VARIABLE:
    case PLOTASK_NO_SUCH_QUERY_RELATION:
        return refuse_word(line, typed, word_at_fault(plot, asked), asked->answer.refusal);
    default:
        return refuse_number(line, typed->at, asked->answer.refusal);
    }
}

/* Takes the name of a question, or a question in words, which is then its label. */
static bool take_typed(struct desk *desk, struct line *line, struct typed *typed, char label[LINE_ROOM])
{
    struct line ahead = *line;
    struct word word = take_word(&ahead);

    typed->at = next_at(line);
    typed->named = find_question(desk, word);
    if (typed->named) {
        struct line text = line_of(typed->named->text);
        line->at = ahead.at;
        if (!take_question(&text, &desk->plot, &typed->tree))
            return refuse(line, typed->at, 0, "in %s: %s", typed->named->name, text.fault.text);
        snprintf(label, LINE_ROOM, "%s", typed->named->name);
        return true;
    }
    if (!is_kind(word) && !next_is(&ahead, '('))
        return expected(line, typed->at, "a question or its name");
    if (!take_question(line, &desk->plot, &typed->tree))
        return false;
    snprintf(label, LINE_ROOM, "%.*s", (int)(line->at - typed->at), line->text + typed->at);
    return true;
}

/* Takes "within" with a number of looks, and "unlisted", each at most once. */
static bool take_options(struct line *line, struct asked *asked, size_t *allowance_at)
{
    static const char *const left[2][2] = {
        {"a cell, within, unlisted or the end of the line", "within or the end of the line"},
        {"unlisted or the end of the line", "the end of the line"},
    };
    bool within = false;

    asked->allowance = ALLOWANCE;
    while (!at_end(line)) {
        struct word word = take_word(line);
        if (word_is(word, "unlisted") && !asked->unlisted) {
            asked->unlisted = true;
        } else if (word_is(word, "within") && !within) {
            struct word number = take_word(line);
            uint64_t allowance;
            if (!word_number(number, 0, UINT32_MAX, &allowance) || allowance > UINT32_MAX)
                return expected(line, number.at, "a number of looks, 0 to 4294967295");
            asked->allowance = (uint32_t)allowance;
            *allowance_at = number.at;
            within = true;
        } else {
            return expected(line, word.at, "%s", left[within][asked->unlisted]);
        }
    }
    return true;
}

static void put_question(struct asked *asked, const struct tree *tree)
{
    asked->word_count = tree->nodes * PLOTASK_NODE_WORDS;
    memcpy(asked->words, tree->words, sizeof asked->words);
}

/* Refuses a question that would be refused whatever its row is. A row of six cells gives the most variables a value. */
static bool test_question(const struct plot *plot, struct line *line, const struct typed *typed)
{
    static struct asked asked;

    asked = (struct asked){.cell_count = PLOTASK_CANDIDATE, .unlisted = true};
    put_question(&asked, &typed->tree);
    asked.answer = ask_plot(plot, &asked, asked.cells);
    return asked.answer.refusal == PLOTASK_DONE || asked.answer.refusal == PLOTASK_BUDGET_SPENT ||
           refuse_question(plot, line, typed, &asked);
}

/* Takes a name that can be a question's, and the colon after it. */
static bool take_question_name(struct line *line, char name[NAME_ROOM])
{
    struct line ahead = *line;
    struct word word = take_word(&ahead);

    if (is_kind(word))
        return expected(line, word.at, "a name that no question starts with");
    return take_name(line, "a name for the question", name) && take_sign(line, ':');
}

/* Keeps a text under a name, if there is room for it, and says what changed. */
static bool keep_question(struct desk *desk, const char *name, const char *text, int length, bool plain)
{
    struct question *question = find_question(desk, (struct word){.start = name, .length = strlen(name)});

    if (!question && desk->question_count == QUESTIONS)
        return false;
    if (!question) {
        question = &desk->questions[desk->question_count++];
        snprintf(question->name, sizeof question->name, "%s", name);
        fprintf(desk->out, "%s is a question now\n", name);
    } else if (word_is((struct word){.start = text, .length = (size_t)length}, question->text)) {
        fprintf(desk->out, "%s is that question already\n", name);
    } else {
        bool dropped = drop_asked(desk, name) > 0;
        fprintf(desk->out, "%s is another question now%s\n", name, dropped ? "; the old one is not asked again" : "");
    }
    snprintf(question->text, sizeof question->text, "%.*s", length, text);
    question->plain = plain;
    return true;
}

/* question NAME: QUESTION */
bool name_question(struct desk *desk, struct line *line)
{
    struct typed typed = {.named = NULL};
    size_t name_at = next_at(line);
    char name[NAME_ROOM];

    if (!take_question_name(line, name))
        return false;
    typed.at = next_at(line);
    if (!take_question(line, &desk->plot, &typed.tree))
        return false;
    int length = (int)(line->at - typed.at);
    if (!test_question(&desk->plot, line, &typed) || !take_end(line))
        return false;
    bool plain = is_plain(typed.tree.words, typed.tree.nodes * PLOTASK_NODE_WORDS);
    return keep_question(desk, name, line->text + typed.at, length, plain) ||
           refuse(line, name_at, 0, "the desk has room for %d questions with names; forget one first", (int)QUESTIONS);
}

/* forget [NAME] */
bool forget(struct desk *desk, struct line *line)
{
    if (at_end(line)) {
        unsigned dropped = drop_asked(desk, NULL);
        fprintf(desk->out, "%u %s%s not asked again\n", COUNTED(dropped, "question"));
        return true;
    }
    struct word word = take_word(line);
    struct question *question = find_question(desk, word);
    if (!question)
        return expected(line, word.at, "the name of a question");
    if (!take_end(line))
        return false;
    drop_asked(desk, question->name);
    fprintf(desk->out, "%s is no question now\n", question->name);
    memmove(question, question + 1, (size_t)(&desk->questions[--desk->question_count] - question) * sizeof *question);
    return true;
}

static bool refuse_asked(const struct plot *plot, struct line *line, const struct typed *typed,
                         const struct asked *asked, const struct cells *row, size_t allowance_at)
{
    switch (asked->answer.refusal) {
    case PLOTASK_BAD_CANDIDATE:
        return refuse_number(line, row->at[cell_at_fault(plot, row->cells, row->count)], asked->answer.refusal);
    case PLOTASK_BUDGET_SPENT:
        return refuse(line, allowance_at, asked->answer.refusal, "%s, %u", meaning(asked->answer.refusal),
                      (unsigned)asked->allowance);
    default:
        return refuse_question(plot, line, typed, asked);
    }
}

/*
 * What the verdict says about the ways to ink the marks, and not more than is proved. Unknown never says that some way
 * makes it true: and(equal(v0, 1), equal(v0, 2)) of m1 is unknown, and every way makes it false.
 */
static const char *remark_on(const struct asked *asked)
{
    if (asked->answer.truth != PLOTASK_UNKNOWN)
        return "it stays so however the marks are filled in";
    return is_plain(asked->words, asked->word_count)
               ? "some way to ink the marks makes it false"
               : "the rules could not tell; as far as they go, it may hold for every way to ink the marks";
}

static void say_answer(FILE *out, const struct asked *asked)
{
    print_answer(out, &asked->answer);
    fprintf(out, ": %s\n", remark_on(asked));
}

/* ask QUESTION CELL.. [within LOOKS] [unlisted], where the question is in words or a name. */
bool ask(struct desk *desk, struct line *line)
{
    static struct asked asked;
    struct typed typed;
    struct cells row = {.count = 0};

    asked = (struct asked){.fill_count = desk->plot.fill_count};
    if (!take_typed(desk, line, &typed, asked.label))
        return false;
    size_t allowance_at = typed.at;
    if (typed.tree.nodes <= PLOTASK_NODES &&
        (!take_cells(line, false, &row) || !take_options(line, &asked, &allowance_at)))
        return false;
    put_question(&asked, &typed.tree);
    memcpy(asked.cells, row.cells, sizeof asked.cells);
    asked.cell_count = row.count;
    asked.answer = ask_plot(&desk->plot, &asked, asked.cells);
    if (asked.answer.refusal != PLOTASK_DONE)
        return refuse_asked(&desk->plot, line, &typed, &asked, &row, allowance_at);
    say_answer(desk->out, &asked);
    remember(desk, &asked);
    return true;
}

static void list_asked(FILE *out, const struct plot *plot, const struct asked *asked)
{
    fputs(is_plain(asked->words, asked->word_count) ? "asked, plain: " : "asked: ", out);
    print_asked(out, plot, asked);
    fputs(": ", out);
    print_answer(out, &asked->answer);
    fputc('\n', out);
}

/* questions */
bool questions(struct desk *desk, struct line *line)
{
    if (!take_end(line))
        return false;
    for (size_t i = 0; i < desk->question_count; i++) {
        const struct question *question = &desk->questions[i];
        fprintf(desk->out, "%s%s: %s\n", question->name, question->plain ? ", plain" : "", question->text);
    }
    for (size_t i = 0; i < desk->asked_count; i++)
        list_asked(desk->out, &desk->plot, &desk->asked[i]);
    if (desk->question_count + desk->asked_count == 0)
        fputs("no questions yet\n", desk->out);
    return true;
}
