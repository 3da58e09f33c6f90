/* Rows, fills and cards in a conversation. */
#include "card_files.h"
#include "talk.h"
#include "typing/typing.h"

#include <string.h>

static bool starts_line(const char *answer, const char *text)
{
    const char *at = strstr(answer, text);

    return at && (at == answer || at[-1] == '\n');
}

/* What an accepted row or a fill that was taken back has changed. */
static void meet_changes(const struct account *account, enum met_case changed)
{
    if (starts_line(account->answer, "changed: "))
        meet(changed);
    if (strstr(account->answer, ": refused 46; before: "))
        meet(MET_SPENT_AFTER_CHANGE);
}

/* Whether the highest mark of all stands neither in the plot nor, but for its blanks, in a row. */
static bool is_highest_elsewhere(const struct account *account, const struct any_cells *cells, const bool *blank)
{
    uint32_t mark = highest_of_all(account);

    for (size_t i = 0; i < cells->length; i++)
        if (!blank[i] && cells->cells[i] > CONSTANTS && cells->cells[i] - CONSTANTS >= mark)
            return false;
    return mark > 0 && count_mark(account, mark) == 0;
}

/* The marks for the blanks of a row: those that follow the highest of all. Returns the first blank without one. */
static size_t mark_blanks(const struct account *account, struct any_cells *cells, const bool *blank)
{
    uint32_t mark = highest_of_all(account);

    for (size_t i = 0; i < cells->length; i++)
        if (!blank[i] && cells->cells[i] > CONSTANTS + mark)
            mark = cells->cells[i] - CONSTANTS;
    for (size_t i = 0; i < cells->length; i++)
        if (blank[i]) {
            if (++mark > NULLS)
                return i;
            cells->cells[i] = CONSTANTS + mark;
        }
    return cells->length;
}

static bool holds_mark(const struct any_cells *cells, uint32_t mark)
{
    for (size_t i = 0; i < cells->length; i++)
        if (cells->cells[i] == CONSTANTS + mark)
            return true;
    return false;
}

/* Whether a row asked about holds the mark as it is now. */
static bool is_asked_about(const struct account *account, uint32_t mark)
{
    for (size_t i = 0; i < account->kept_count; i++) {
        struct any_cells row = row_now(account, &account->kept[i].row);
        if (holds_mark(&row, mark))
            return true;
    }
    return false;
}

/* The mark below that of a blank is the highest: it may be one that is filled, or that only a row asked about holds. */
static void meet_blanks(const struct account *account, const struct any_cells *cells, const bool *blank)
{
    for (size_t i = 0; i < cells->length; i++) {
        if (!blank[i])
            continue;
        uint32_t mark = cells->cells[i] - CONSTANTS - 1;
        meet(MET_BLANK_MARKED);
        for (size_t j = 0; j < account->fill_count; j++)
            if (account->fills[j].mark == mark && count_mark(account, mark) == 0)
                meet(MET_BLANK_ABOVE_FILL);
        if (mark > 0 && count_mark(account, mark) == 0 && is_asked_about(account, mark))
            meet(MET_BLANK_ABOVE_ASKED);
        return;
    }
}

bool try_row(struct talk *talk)
{
    struct random *random = talk->random;
    struct account *account = &talk->account;
    uint32_t sheet = below(random, account->plot.header[HEADER_RELATIONS]);
    const char *name = desk.plot.sheets[sheet].name;
    struct any_cells cells = {.length = arity_of(account->plot.header, sheet)};
    bool blank[CELLS_ROOM] = {false};
    size_t cell_at[CELLS_ROOM], sheet_at;

    start_line(talk, "%s", "");
    if (one_in(random, 3))
        put(talk, "enter ");
    sheet_at = put(talk, "%s", name);
    for (size_t i = 0; i < cells.length; i++) {
        blank[i] = one_in(random, 3);
        cells.cells[i] = any_cell(random, &talk->palette);
        cell_at[i] = blank[i] ? put(talk, " -") + 1 : put_cell(talk, cells.cells[i]);
    }
    size_t unmarked = mark_blanks(account, &cells, blank);
    if (unmarked < cells.length) {
        meet(MET_BLANK_17);
        return type_refused(talk, 17, cell_at[unmarked], "",
                            is_highest_elsewhere(&talk->account, &cells, blank)
                                ? "; the highest is in a fill or in a row asked about"
                                : "");
    }
    if (account->plot.length + 1 + cells.length > MOST_WORDS) {
        meet(MET_ROW_42);
        return type_refused(talk, 42, sheet_at, "", "");
    }
    meet_blanks(account, &cells, blank);
    account_row(account, name, sheet, &cells, blank);
    meet(MET_ROW_ENTERED);
    meet_changes(account, MET_CHANGED_BY_ROW);
    return type_accepted(talk);
}

/* A mark that some cell of the plot holds, if a few tries find one. */
static uint32_t mark_to_fill(struct talk *talk)
{
    const struct any_plot *plot = &talk->account.plot;

    for (size_t tries = one_in(talk->random, 8) ? 0 : 40; tries > 0 && plot->length > 0; tries--) {
        uint32_t word = plot->words[below(talk->random, plot->length)];
        if (word > CONSTANTS)
            return word - CONSTANTS;
    }
    return any_null(talk->random, &talk->palette);
}

static void meet_fill(const struct account *account, uint32_t mark, uint32_t cell, bool asked_about)
{
    meet(starts_line(account->answer, "became settled: ") ? MET_SETTLED_BY_FILL : MET_FILLED);
    if (starts_line(account->answer, "now within its allowance: "))
        meet(MET_WITHIN_AGAIN);
    if (asked_about)
        meet(MET_ROW_FILLED);
    if (cell == CONSTANTS + mark)
        meet(MET_FILLED_BY_ITSELF);
}

/* The looks of all questions that were answered. */
static uint64_t all_looks(const struct account *account)
{
    uint64_t looks = 0;

    for (size_t i = 0; i < account->kept_count; i++)
        looks += account->kept[i].verdict.looks;
    return looks;
}

bool try_fill(struct talk *talk)
{
    struct random *random = talk->random;
    struct account *account = &talk->account;
    uint32_t mark = mark_to_fill(talk);
    uint32_t cell = one_in(random, 10) ? CONSTANTS + mark : any_cell(random, &talk->palette);
    uint32_t count = count_mark(account, mark);

    if (account->fill_count == MOST_FILLS)
        return true;
    size_t start = start_line(talk, "fill");
    size_t mark_at = put_cell(talk, CONSTANTS + mark);
    put_cell(talk, cell);
    if (count == 0) {
        meet(MET_FILL_43);
        return type_refused(talk, 43, mark_at, "", "");
    }
    if (log_words_used(account) + count + 2 > LOG_WORDS) {
        meet(MET_FILL_47);
        return type_refused(talk, 47, start, "", "");
    }
    bool asked_about = is_asked_about(account, mark);
    uint64_t looks = all_looks(account);
    account_fill(account, mark, cell);
    meet_fill(account, mark, cell, asked_about);
    if (all_looks(account) < looks)
        meet(MET_FEWER_LOOKS);
    return type_accepted(talk);
}

bool try_take_back(struct talk *talk)
{
    struct account *account = &talk->account;
    size_t start = start_line(talk, "take"), stays = 0;

    put(talk, one_in(talk->random, 4) ? " \t back " : " back");
    if (account->fill_count == 0) {
        meet(MET_TAKE_48);
        return type_refused(talk, 48, start, "", "");
    }
    for (size_t i = 0; i < account->kept_count; i++)
        stays += account->kept[i].row.fills == account->fill_count;
    account_take_back(account);
    meet(MET_TAKEN_BACK);
    meet_changes(account, MET_CHANGED_BY_TAKE_BACK);
    if (is_asked_about(account, account->fills[account->fill_count].mark))
        meet(MET_ROW_TAKEN_BACK);
    if (stays > 0)
        meet(MET_ROW_STAYS);
    return type_accepted(talk);
}

bool try_card(struct talk *talk)
{
    start_line(talk, "save %s", CARD_OF_TALK);
    account_saved(&talk->account, CARD_OF_TALK);
    if (!type_accepted(talk))
        return false;
    start_line(talk, "load %s", CARD_OF_TALK);
    account_loaded(&talk->account, CARD_OF_TALK);
    meet(MET_CARD_READ_AGAIN);
    return type_accepted(talk);
}
