/* Questions in a conversation. */
#include "talk.h"
#include "text_order.h"
#include "typing/typing.h"

#include <string.h>

enum {
    MOST_LOOKS = 5000, /* of a question with some or every: the values, and so its looks, may become many */
    MOST_TEXT = 3900   /* bytes of a question, so that a line has room for it and its row */
};

/* A question as it is put to the desk. */
struct put_question {
    struct any_query made;
    struct spelling spelling;
    struct any_query query; /* the same, its nodes in the order of the text */
    struct any_cells row;
    size_t cell_at[CELLS_ROOM];
    const char *name; /* null if it is asked in words */
    size_t at;        /* where the question or its name stands in the line */
    uint32_t allowance;
    size_t allowance_at; /* 0 if the line has no allowance */
};

static struct put_question asked;

static const char *const names[] = {"q", "qq", "hire", "within", "abcdefghijklmnop", "unlisted", "ask", "m4_"};

enum { NAMES = sizeof names / sizeof *names };

/* The questions that have these names, in the order of the account. */
static struct put_question named[NAMES];

static bool is_cell(uint32_t number)
{
    return number < CONSTANTS || (number > CONSTANTS && number <= CONSTANTS + NULLS);
}

static void damage_row(struct random *random, struct any_cells *row)
{
    static const uint32_t wrong[] = {CONSTANTS, CONSTANTS + NULLS + 1, FIRST_VARIABLE, 16777216, UINT32_MAX};

    if (row->length > 0 && one_in(random, 2))
        row->cells[below(random, row->length)] = wrong[below(random, 5)];
    else
        row->length = MOST_COLUMNS + 1 + below(random, 4);
}

/* Nested quantifiers, often more than there are variables for their names. */
static void make_deep_query(struct random *random, struct any_query *query)
{
    uint32_t depth = 10 + below(random, 14), *words = query->words;

    query->length = (depth + 1) * NODE_WORDS;
    memset(words, 0, query->length * sizeof *words);
    for (uint32_t i = 0; i < depth; i++, words += NODE_WORDS) {
        words[0] = one_in(random, 2) ? SOME : EVERY;
        words[1] = i < VARIABLES ? i : below(random, VARIABLES);
        words[2] = i + 1;
    }
    words[0] = EQUAL;
    words[1] = FIRST_VARIABLE + below(random, VARIABLES);
    words[2] = FIRST_VARIABLE + below(random, VARIABLES);
}

/* A query of any kind for the row, at times as deep or as large as it can be. */
static void make_query_asked(struct talk *talk, struct any_query *query)
{
    struct random *random = talk->random;
    const struct any_plot *plot = &talk->account.plot;

    if (one_in(random, 25))
        make_deep_query(random, query);
    else if (one_in(random, 50))
        do
            make_query(random, &talk->palette, plot->header, count_values(plot), asked.row.length, query);
        while (query->length < (one_in(random, 4) ? MOST_NODES + 1 : MOST_NODES) * NODE_WORDS);
    else
        make_any_query(random, &talk->palette, plot, &asked.row, query);
}

/* Makes a question and its spelling; false if that is too long for a line. */
static bool make_question(struct talk *talk)
{
    struct random *random = talk->random;

    make_candidate(random, &talk->palette, &asked.row);
    make_query_asked(talk, &asked.made);
    if (one_in(random, 4))
        for (size_t faults = 1 + below(random, 3); faults > 0; faults--)
            misspell(random, talk->account.plot.header, &asked.made);
    if (asked.row.length > 0 && one_in(random, 8))
        asked.row.length--;
    spell(random, &asked.made, &desk.plot, false, &asked.spelling);
    if (asked.spelling.length > MOST_TEXT)
        spell(random, &asked.made, &desk.plot, true, &asked.spelling);
    asked.query.length = asked.spelling.nodes * NODE_WORDS;
    memcpy(asked.query.words, asked.spelling.words, asked.query.length * sizeof *asked.query.words);
    if (one_in(random, 12))
        damage_row(random, &asked.row);
    return asked.spelling.length <= MOST_TEXT;
}

static bool has_quantifier(const struct any_query *query)
{
    for (size_t i = 0; i < query->length; i += NODE_WORDS)
        if (query->words[i] == SOME || query->words[i] == EVERY)
            return true;
    return false;
}

static void choose_allowance(struct talk *talk)
{
    asked.allowance = any_budget(talk->random, &talk->account.plot, &asked.query, &asked.row, 3000);
    if (asked.allowance > MOST_LOOKS && has_quantifier(&asked.query))
        asked.allowance = MOST_LOOKS;
}

/* Puts the line with the question, in words or by name, its row, the allowance, and how it is asked. */
static void put_asked(struct talk *talk, bool unlisted)
{
    struct random *random = talk->random;
    bool unlisted_first = one_in(random, 2);

    start_line(talk, "ask ");
    asked.at = asked.name ? put(talk, "%s", asked.name) : put(talk, "%s", asked.spelling.text);
    for (size_t i = 0; i < asked.row.length; i++)
        asked.cell_at[i] = put_cell(talk, asked.row.cells[i]);
    if (unlisted && unlisted_first)
        put(talk, " unlisted");
    asked.allowance_at = 0;
    if (asked.allowance != ALLOWANCE)
        asked.allowance_at = put(talk, " within %u", (unsigned)asked.allowance) + strlen(" within ");
    if (unlisted && !unlisted_first)
        put(talk, "  unlisted ");
}

/* The first number of the row that is no cell, or its seventh cell; its length if there is none. */
static size_t wrong_cell(void)
{
    for (size_t i = 0; i < asked.row.length; i++)
        if (i == MOST_COLUMNS || !is_cell(asked.row.cells[i]))
            return i;
    return asked.row.length;
}

static bool has_cell(const struct any_plot *plot, uint32_t cell)
{
    for (size_t at = 0; at < plot->length; at += 1 + arity_of(plot->header, plot->words[at]))
        for (size_t i = 1; i <= arity_of(plot->header, plot->words[at]); i++)
            if (plot->words[at + i] == cell)
                return true;
    return false;
}

/* Whether the question has some or every, and names a value that does not stand in the plot. */
static bool names_value(const struct any_plot *plot)
{
    for (size_t i = 0; i < asked.spelling.spelled_count && has_quantifier(&asked.query); i++) {
        const struct spelled *spelled = &asked.spelling.spelled[i];
        if (spelled->what == SPELLED_TERM && spelled->number < CONSTANTS && !has_cell(plot, spelled->number))
            return true;
    }
    return false;
}

static void meet_verdict(const struct any_plot *plot, const struct verdict *verdict, bool unlisted)
{
    meet(asked.name ? MET_BY_NAME : MET_IN_WORDS);
    meet(unlisted ? MET_UNLISTED : MET_LISTED);
    if (verdict->truth == TRUTH_UNKNOWN)
        meet(is_plain_query(&asked.query) ? MET_PLAIN_UNKNOWN : MET_OTHER_UNKNOWN);
    else
        meet(verdict->truth == TRUTH_TRUE ? MET_ANSWERED_TRUE : MET_ANSWERED_FALSE);
    if (verdict->looks == asked.allowance)
        meet(MET_ALLOWANCE_TAKEN);
    if (asked.spelling.nodes == MOST_NODES)
        meet(MET_HUNDRED_NODES);
    if (names_value(plot))
        meet(MET_VALUE_NAMED);
}

static bool type_answered(struct talk *talk, const struct verdict *verdict, bool unlisted)
{
    static struct kept kept;
    size_t kept_count = talk->account.kept_count;

    strcpy(kept.label, asked.name ? asked.name : asked.spelling.text);
    kept.query = asked.query;
    kept.row = (struct dated_row){0, asked.row, talk->account.fill_count};
    kept.allowance = asked.allowance;
    kept.unlisted = unlisted;
    kept.verdict = *verdict;
    account_asked(&talk->account, &kept);
    meet_verdict(&talk->account.plot, verdict, unlisted);
    if (talk->account.kept_count == kept_count)
        meet(strstr(talk->account.answer, "no longer") ? MET_OLDEST_DROPPED : MET_ASKED_AGAIN);
    return type_accepted(talk);
}

/* A number of the question at which it is refused. The line has it, or only the name of the question that has it. */
static bool type_faulty(struct talk *talk, const struct spelled *fault, uint32_t number)
{
    char before[64];

    if (!asked.name) {
        meet(number == 22 ? MET_WORDS_22 : number == 24 ? MET_WORDS_24 : MET_WORDS_25);
        if (fault->what == SPELLED_VARIABLE && asked.spelling.out_of_variables)
            meet(MET_NO_VARIABLE_LEFT);
        return type_refused_word(talk, number, asked.at + fault->at, "", fault);
    }
    if (number == 24)
        meet(MET_NAME_24);
    snprintf(before, sizeof before, "%.*s in %s: ", (int)fault->length, asked.spelling.text + fault->at, asked.name);
    return type_refused_word(talk, number, asked.at, before, fault);
}

/*
 * Whether the query is the one that was made, its nodes in the order of the text. This is so unless it is refused for
 * one of its words.
 */
static bool is_spelled_well(const struct verdict *verdict)
{
    static struct any_query ordered;

    if (verdict->refusal != 0 && verdict->refusal != 46)
        return true;
    order_as_text(&asked.made, &ordered);
    bool same = ordered.length == asked.query.length &&
                memcmp(ordered.words, asked.query.words, ordered.length * sizeof *ordered.words) == 0;
    if (!same)
        print_bytes("the query and its text are two:", asked.spelling.text, asked.spelling.length);
    return same;
}

/* Asks, and foresees the answer: 21, then 26, then the first number at fault, then 46. */
static bool ask_once(struct talk *talk, bool unlisted)
{
    struct verdict verdict = refer(&talk->account, &asked.query, &asked.row, asked.allowance);
    uint32_t number = 0;
    const struct spelled *fault = first_fault(&asked.spelling, talk->account.plot.header, asked.row.length, &number);
    size_t wrong = wrong_cell();
    char after[32];

    put_asked(talk, unlisted);
    if (!is_spelled_well(&verdict))
        return false;
    if (verdict.refusal == 21) {
        meet(MET_NODE_101);
        return type_refused(talk, 21, asked.at + asked.spelling.node_at[MOST_NODES], "", "");
    }
    if (verdict.refusal == 26) {
        meet(wrong == MOST_COLUMNS ? MET_ROW_OF_SEVEN : MET_ROW_26);
        return type_refused(talk, 26, asked.cell_at[wrong], "", "");
    }
    if (fault) {
        if (verdict.refusal != number)
            printf("the reference says %u, and the text has a fault of %u\n", (unsigned)verdict.refusal,
                   (unsigned)number);
        return verdict.refusal == number && type_faulty(talk, fault, number);
    }
    if (verdict.refusal == 46) {
        meet(asked.name ? MET_NAME_46 : MET_WORDS_46);
        snprintf(after, sizeof after, ", %u", (unsigned)asked.allowance);
        return type_refused(talk, 46, asked.allowance_at ? asked.allowance_at : asked.at, "", after);
    }
    return type_answered(talk, &verdict, unlisted);
}

/* Enters a name in the account; then the question can be asked by it. */
static void account_named(struct talk *talk, const char *name)
{
    size_t at = 0, before = talk->account.named_count;

    account_name(&talk->account, name, asked.spelling.text, &asked.query);
    if (talk->account.named_count == before)
        meet(MET_NAMED_AGAIN);
    while (strcmp(talk->account.named[at].name, name) != 0)
        at++;
    asked.name = name;
    named[at] = asked;
}

/* Gives the question a name; it is tried with a row of six cells. */
static bool name_it(struct talk *talk)
{
    const char *name = names[below(talk->random, NAMES)];
    uint32_t number;
    const struct spelled *fault = first_fault(&asked.spelling, talk->account.plot.header, PLOTASK_CANDIDATE, &number);

    start_line(talk, "question %s%s:", name, one_in(talk->random, 2) ? " " : "");
    size_t at = put(talk, "%s%s%s", one_in(talk->random, 2) ? " " : "", asked.spelling.text,
                    one_in(talk->random, 4) ? " \t" : "");
    at += talk->line[at] == ' ';
    if (asked.spelling.nodes > MOST_NODES) {
        meet(MET_NODE_101_NAMED);
        return type_refused(talk, 21, at + asked.spelling.node_at[MOST_NODES], "", "");
    }
    if (fault) {
        meet(number == 22 ? MET_NAMING_22 : number == 24 ? MET_NAMING_24 : MET_NAMING_25);
        return type_refused_word(talk, number, at + fault->at, "", fault);
    }
    account_named(talk, name);
    return type_accepted(talk);
}

/* Takes a question that has a name already, for another row; false if there is none. */
static bool take_named(struct talk *talk)
{
    struct any_cells row;

    if (talk->account.named_count == 0 || !one_in(talk->random, 4))
        return false;
    asked = named[below(talk->random, talk->account.named_count)];
    make_candidate(talk->random, &talk->palette, &row);
    if (row.length < asked.row.length)
        row.length = asked.row.length;
    if (one_in(talk->random, 2))
        memcpy(row.cells, asked.row.cells, asked.row.length / 2 * sizeof *row.cells);
    asked.row = row;
    meet(MET_NAMED_BEFORE);
    return true;
}

/* Takes the row and the allowance with which the question was asked before, as they were typed; false if it was not. */
static bool take_typed_before(struct talk *talk)
{
    for (size_t i = talk->account.kept_count; i > 0; i--) {
        const struct kept *kept = &talk->account.kept[i - 1];
        if (strcmp(kept->label, asked.name) != 0)
            continue;
        asked.row = kept->row.cells;
        asked.allowance = kept->allowance;
        return true;
    }
    return false;
}

bool try_question(struct talk *talk)
{
    bool unlisted = one_in(talk->random, 2), again = take_named(talk);

    if (!again) {
        asked.name = NULL;
        if (!make_question(talk))
            return true;
    }
    if (again && one_in(talk->random, 2) && take_typed_before(talk))
        return ask_once(talk, unlisted) && ask_once(talk, !unlisted);
    choose_allowance(talk);
    if (!again && one_in(talk->random, 3) && !name_it(talk))
        return false;
    if (!has_quantifier(&asked.query) && one_in(talk->random, 4))
        asked.allowance = ALLOWANCE;
    return ask_once(talk, unlisted) && ask_once(talk, !unlisted) &&
           (!one_in(talk->random, 6) || ask_once(talk, unlisted));
}
