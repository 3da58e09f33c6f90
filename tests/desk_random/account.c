#include "account.h"
#include "tally.h"

#include <stdarg.h>
#include <string.h>

static const char *plural(size_t count)
{
    return count == 1 ? "" : "s";
}

static void start_answer(struct account *account)
{
    account->answer[0] = '\0';
    account->answer_length = 0;
}

/* Adds a text to the answer. */
__attribute__((format(printf, 2, 3))) static void add(struct account *account, const char *format, ...)
{
    va_list arguments;

    va_start(arguments, format);
    int length =
        vsnprintf(account->answer + account->answer_length, ANSWER_ROOM - account->answer_length, format, arguments);
    va_end(arguments);
    account->answer_length += (size_t)length;
}

static void add_cell(struct account *account, uint32_t cell)
{
    if (cell > CONSTANTS)
        add(account, " m%u", (unsigned)(cell - CONSTANTS));
    else
        add(account, " %u", (unsigned)cell);
}

static void add_verdict(struct account *account, const struct verdict *verdict)
{
    static const char *const truths[] = {"false", "unknown", "true"};

    if (verdict->refusal != 0)
        add(account, "refused %u", (unsigned)verdict->refusal);
    else
        add(account, "%s, %u look%s", truths[verdict->truth], (unsigned)verdict->looks, plural(verdict->looks));
}

struct any_cells row_now(const struct account *account, const struct dated_row *row)
{
    struct any_cells cells = row->cells;

    for (size_t i = row->fills; i < account->fill_count; i++)
        for (size_t j = 0; j < cells.length; j++)
            if (cells.cells[j] == CONSTANTS + account->fills[i].mark)
                cells.cells[j] = account->fills[i].cell;
    return cells;
}

static void append_row(struct any_plot *plot, uint32_t sheet, const struct any_cells *cells)
{
    plot->words[plot->length] = sheet;
    memcpy(plot->words + plot->length + 1, cells->cells, cells->length * sizeof *cells->cells);
    plot->length += 1 + cells->length;
    header_add_row(plot->header, sheet);
}

/* Writes the plot as it is now. */
static void write_plot(struct account *account)
{
    account->plot.length = 0;
    header_drop_rows(account->plot.header);
    for (size_t i = 0; i < account->row_count; i++) {
        struct any_cells cells = row_now(account, &account->rows[i]);
        append_row(&account->plot, account->rows[i].sheet, &cells);
    }
}

void open_account(struct account *account, const uint32_t header[HEADER_WORDS])
{
    account->row_count = account->fill_count = account->named_count = account->kept_count = 0;
    memset(account->rows_of, 0, sizeof account->rows_of);
    memcpy(account->plot.header, header, HEADER_WORDS * sizeof *header);
    account->plot.header_length = HEADER_WORDS;
    start_answer(account);
    write_plot(account);
}

struct verdict refer(const struct account *account, const struct any_query *query, const struct any_cells *row,
                     uint32_t allowance)
{
    static uint32_t list[PLOT_ROOM];
    const struct any_plot *plot = &account->plot;
    struct verdict verdict = {0, 0, 0};

    verdict.refusal = ref_ask(plot->header, plot->header_length, plot->words, plot->length, query->words, query->length,
                              row->cells, row->length, list, PLOT_ROOM, allowance, &verdict.truth, &verdict.looks);
    return verdict;
}

/* Whether a node and what is below it have neither not nor every. */
static bool is_plain_at(const struct any_query *query, uint32_t node)
{
    const uint32_t *words = query->words + node * NODE_WORDS;

    switch (words[0]) {
    case ROW_STANDS:
    case EQUAL:
        return true;
    case AND:
    case OR:
        return is_plain_at(query, words[1]) && is_plain_at(query, words[2]);
    case SOME:
        return is_plain_at(query, words[2]);
    default:
        return false;
    }
}

bool is_plain_query(const struct any_query *query)
{
    return is_plain_at(query, 0);
}

/* Asks a question again, of its row as it is now; returns the verdict before. */
static struct verdict refer_again(struct account *account, struct kept *kept)
{
    struct verdict before = kept->verdict;
    struct any_cells row = row_now(account, &kept->row);

    kept->verdict = refer(account, &kept->query, &row, kept->allowance);
    return before;
}

static void add_cells(struct account *account, const struct any_cells *cells)
{
    for (size_t i = 0; i < cells->length; i++)
        add_cell(account, cells->cells[i]);
}

static bool same_cells(const struct any_cells *a, const struct any_cells *b)
{
    return a->length == b->length && memcmp(a->cells, b->cells, a->length * sizeof *a->cells) == 0;
}

/* A question with its row as it is now, how it is asked, and, if a fill has changed the row, how that was typed. */
static void add_kept(struct account *account, const struct kept *kept)
{
    struct any_cells row = row_now(account, &kept->row);

    add(account, "%s", kept->label);
    add_cells(account, &row);
    if (kept->allowance != ALLOWANCE)
        add(account, " within %u", (unsigned)kept->allowance);
    if (kept->unlisted)
        add(account, " unlisted");
    if (same_cells(&row, &kept->row.cells))
        return;
    add(account, " (asked of");
    add_cells(account, &kept->row.cells);
    add(account, ")");
}

static void add_change(struct account *account, const char *what, const struct kept *kept, const struct verdict *before)
{
    add(account, "%s: ", what);
    add_kept(account, kept);
    add(account, ": ");
    add_verdict(account, &kept->verdict);
    add(account, "; before: ");
    add_verdict(account, before);
    add(account, "\n");
}

/* After a row or a take-back: each question whose verdict or refusal is another; returns their number. */
static size_t add_changes(struct account *account)
{
    size_t changes = 0;

    for (size_t i = 0; i < account->kept_count; i++) {
        struct kept *kept = &account->kept[i];
        struct verdict before = refer_again(account, kept);
        if (before.refusal == kept->verdict.refusal && (before.refusal != 0 || before.truth == kept->verdict.truth))
            continue;
        add_change(account, "changed", kept, &before);
        changes++;
    }
    return changes;
}

static bool is_settled(const struct verdict *verdict)
{
    return verdict->refusal == 0 && verdict->truth != TRUTH_UNKNOWN;
}

/* After a fill. By the rules no verdict is unsettled and no looks rise, so there is no text for these here. */
static void add_settled(struct account *account)
{
    size_t told = 0;

    for (size_t i = 0; i < account->kept_count; i++) {
        struct kept *kept = &account->kept[i];
        struct verdict before = refer_again(account, kept);
        bool within = before.refusal != 0 && kept->verdict.refusal == 0;
        if (!within && (before.refusal != 0 || is_settled(&before) || !is_settled(&kept->verdict)))
            continue;
        add_change(account, within ? "now within its allowance" : "became settled", kept, &before);
        told++;
    }
    if (account->kept_count > 0)
        add(account, "%sno verdict was unsettled\n", told > 0 ? "" : "no question became settled, and ");
}

uint32_t count_mark(const struct account *account, uint32_t mark)
{
    const struct any_plot *plot = &account->plot;
    uint32_t count = 0;

    for (size_t at = 0; at < plot->length; at += 1 + arity_of(plot->header, plot->words[at]))
        for (size_t i = 1; i <= arity_of(plot->header, plot->words[at]); i++)
            count += plot->words[at + i] == CONSTANTS + mark;
    return count;
}

size_t log_words_used(const struct account *account)
{
    size_t used = 0;

    for (size_t i = 0; i < account->fill_count; i++)
        used += account->fills[i].log_words;
    return used;
}

static uint32_t higher(uint32_t mark, const struct any_cells *cells)
{
    for (size_t i = 0; i < cells->length; i++)
        if (cells->cells[i] > CONSTANTS + mark)
            mark = cells->cells[i] - CONSTANTS;
    return mark;
}

uint32_t highest_of_all(const struct account *account)
{
    uint32_t mark = 0;

    for (size_t i = 0; i < account->row_count; i++) {
        struct any_cells cells = row_now(account, &account->rows[i]);
        mark = higher(mark, &cells);
    }
    for (size_t i = 0; i < account->fill_count; i++)
        mark = account->fills[i].mark > mark ? account->fills[i].mark : mark;
    for (size_t i = 0; i < account->kept_count; i++)
        mark = higher(mark, &account->kept[i].row.cells);
    return mark;
}

void account_row(struct account *account, const char *sheet_name, uint32_t sheet, const struct any_cells *cells,
                 const bool *blank)
{
    size_t blanks = 0, said = 0, rows = ++account->rows_of[sheet];

    start_answer(account);
    account->rows[account->row_count++] = (struct dated_row){sheet, *cells, account->fill_count};
    append_row(&account->plot, sheet, cells);
    add(account, "%s has %zu row%s", sheet_name, rows, plural(rows));
    for (size_t i = 0; i < cells->length; i++)
        blanks += blank[i];
    for (size_t i = 0; i < cells->length; i++)
        if (blank[i]) {
            add(account, "%s", said++ > 0 ? "," : blanks > 1 ? "; the blanks are" : "; the blank is");
            add_cell(account, cells->cells[i]);
        }
    add(account, "\n");
    add_changes(account);
}

void account_fill(struct account *account, uint32_t mark, uint32_t cell)
{
    uint32_t count = count_mark(account, mark);

    start_answer(account);
    account->fills[account->fill_count].mark = mark;
    account->fills[account->fill_count].cell = cell;
    account->fills[account->fill_count++].log_words = count + 2;
    write_plot(account);
    add(account, "m%u %s", (unsigned)mark, cell == CONSTANTS + mark ? "stays" : "is now");
    add_cell(account, cell);
    add(account, ", in %u cell%s\n", (unsigned)count, plural(count));
    add_settled(account);
}

static void drop_kept(struct account *account, size_t at)
{
    account->kept_count--;
    memmove(account->kept + at, account->kept + at + 1, (account->kept_count - at) * sizeof *account->kept);
}

/* The same question of the same row, as it was typed and as it is now, asked in the same manner. */
static bool is_same(const struct account *account, const struct kept *a, const struct kept *b)
{
    struct any_cells row_a = row_now(account, &a->row), row_b = row_now(account, &b->row);

    return strcmp(a->label, b->label) == 0 && a->allowance == b->allowance && a->unlisted == b->unlisted &&
           same_cells(&a->row.cells, &b->row.cells) && same_cells(&row_a, &row_b);
}

/* What has become the same as a later question goes. */
static void drop_repeated(struct account *account)
{
    for (size_t later = 1; later < account->kept_count; later++)
        for (size_t i = 0; i < later; i++)
            if (is_same(account, &account->kept[i], &account->kept[later])) {
                account->kept[later].row.fills = account->kept[i].row.fills;
                drop_kept(account, i--);
                later--;
                meet(MET_BECAME_THE_SAME);
            }
}

/* Rows that came after the fill stay as they are. */
void account_take_back(struct account *account)
{
    size_t left = --account->fill_count;
    size_t count = account->fills[left].log_words - 2;

    start_answer(account);
    for (size_t i = 0; i < account->row_count; i++)
        if (account->rows[i].fills > left)
            account->rows[i].fills = left;
    for (size_t i = 0; i < account->kept_count; i++)
        if (account->kept[i].row.fills > left)
            account->kept[i].row.fills = left;
    drop_repeated(account);
    write_plot(account);
    add(account, "m%u stands again, in %zu cell%s\n", (unsigned)account->fills[left].mark, count, plural(count));
    if (add_changes(account) == 0 && account->kept_count > 0)
        add(account, "no verdict changed\n");
}

/* Drops what was asked by a name, or all; returns their number. */
static size_t drop_asked_by(struct account *account, const char *name)
{
    size_t dropped = 0;

    for (size_t i = account->kept_count; i > 0; i--)
        if (!name || strcmp(account->kept[i - 1].label, name) == 0) {
            drop_kept(account, i - 1);
            dropped++;
        }
    return dropped;
}

void account_name(struct account *account, const char *name, const char *text, const struct any_query *query)
{
    size_t named = 0;
    bool is_plain = is_plain_query(query);

    start_answer(account);
    while (named < account->named_count && strcmp(account->named[named].name, name) != 0)
        named++;
    if (named == account->named_count) {
        account->named_count++;
        add(account, "%s is a question now\n", name);
    } else if (strcmp(account->named[named].text, text) == 0) {
        add(account, "%s is that question already\n", name);
    } else {
        bool dropped = drop_asked_by(account, name) > 0;
        add(account, "%s is another question now%s\n", name, dropped ? "; the old one is not asked again" : "");
        if (is_plain != account->named[named].is_plain)
            meet(is_plain ? MET_PLAIN_ANEW : MET_OTHER_ANEW);
    }
    account->named[named].name = name;
    account->named[named].is_plain = is_plain;
    snprintf(account->named[named].text, LINE_ROOM, "%s", text);
}

void account_forgotten(struct account *account)
{
    size_t dropped = drop_asked_by(account, NULL);

    start_answer(account);
    add(account, "%zu question%s not asked again\n", dropped, plural(dropped));
}

/* What is said after a verdict. After unknown, that depends on whether the question is plain. */
static const char *remark_on(const struct kept *kept)
{
    if (kept->verdict.truth != TRUTH_UNKNOWN)
        return "it stays so however the marks are filled in";
    return is_plain_query(&kept->query)
               ? "some way to ink the marks makes it false"
               : "the rules could not tell; as far as they go, it may hold for every way to ink the marks";
}

/* A question is kept once, as the latest; of more than there is room for, the oldest goes. */
void account_asked(struct account *account, struct kept *kept)
{
    start_answer(account);
    add_verdict(account, &kept->verdict);
    add(account, ": %s\n", remark_on(kept));
    for (size_t i = account->kept_count; i > 0; i--)
        if (is_same(account, &account->kept[i - 1], kept)) {
            kept->row.fills = account->kept[i - 1].row.fills;
            drop_kept(account, i - 1);
        }
    if (account->kept_count == ASKED) {
        add(account, "no longer asked again: ");
        add_kept(account, &account->kept[0]);
        add(account, "\n");
        drop_kept(account, 0);
    }
    account->kept[account->kept_count++] = *kept;
}

void account_questions(struct account *account)
{
    start_answer(account);
    for (size_t i = 0; i < account->named_count; i++) {
        const struct named *named = &account->named[i];
        meet(named->is_plain ? MET_PLAIN_NAMED : MET_OTHER_NAMED);
        add(account, "%s%s: %s\n", named->name, named->is_plain ? ", plain" : "", named->text);
    }
    for (size_t i = 0; i < account->kept_count; i++) {
        bool is_plain = is_plain_query(&account->kept[i].query);
        meet(is_plain ? MET_PLAIN_ASKED : MET_OTHER_ASKED);
        add(account, is_plain ? "asked, plain: " : "asked: ");
        add_kept(account, &account->kept[i]);
        add(account, ": ");
        add_verdict(account, &account->kept[i].verdict);
        add(account, "\n");
    }
    if (account->named_count + account->kept_count == 0)
        add(account, "no questions yet\n");
}

/* The bytes of the plot's card. */
static size_t card_bytes(const struct account *account)
{
    return 1 + account->plot.header[HEADER_RELATIONS] + 2 + 2 * account->row_count + 3 * count_cells(&account->plot);
}

void account_saved(struct account *account, const char *path)
{
    start_answer(account);
    add(account, "a card of %zu bytes written to %s\n", card_bytes(account), path);
}

/* The rows are as they have become. There is no fill to take back, and no question that was asked. */
void account_loaded(struct account *account, const char *path)
{
    uint32_t sheets = account->plot.header[HEADER_RELATIONS];

    start_answer(account);
    add(account, "a card of %zu bytes read from %s: %u sheet%s, %zu row%s\n", card_bytes(account), path,
        (unsigned)sheets, plural(sheets), account->row_count, plural(account->row_count));
    if (account->kept_count > 0)
        add(account, "the questions asked of the old plot are not asked again\n");
    for (size_t i = 0; i < account->row_count; i++) {
        account->rows[i].cells = row_now(account, &account->rows[i]);
        account->rows[i].fills = 0;
    }
    account->fill_count = account->kept_count = 0;
}
