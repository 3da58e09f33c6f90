#include "asked.h"
#include "cells.h"
#include "counted.h"

#include <string.h>

struct answer ask_plot(const struct plot *plot, const struct asked *asked, const uint32_t *cells)
{
    static uint32_t list[PLOTASK_LIST_WORDS];
    struct answer answer = {0};

    answer.refusal = asked->unlisted
                         ? plotask_ask_unlisted(PLOTASK_CONST_HEADER(&plot->header), plot->words, PLOTASK_WORDS,
                                                asked->words, asked->word_count, cells, asked->cell_count,
                                                asked->allowance, &answer.truth, &answer.looks)
                         : plotask_ask(PLOTASK_CONST_HEADER(&plot->header), plot->words, PLOTASK_WORDS, asked->words,
                                       asked->word_count, cells, asked->cell_count, list, PLOTASK_LIST_WORDS,
                                       asked->allowance, &answer.truth, &answer.looks);
    return answer;
}

/* The row as it is now: each fill since it was asked is made in it too. */
static void row_now(const struct plot *plot, const struct asked *asked, uint32_t cells[ROW_ROOM])
{
    memcpy(cells, asked->cells, sizeof asked->cells);
    for (size_t i = asked->fill_count; i < plot->fill_count; i++)
        for (size_t j = 0; j < asked->cell_count; j++)
            if (cells[j] == PLOTASK_MARK(plot->fills[i].mark))
                cells[j] = plot->fills[i].cell;
}

/* Asks again, and returns the answer before. */
static struct answer renew(const struct plot *plot, struct asked *asked)
{
    struct answer before = asked->answer;
    uint32_t cells[ROW_ROOM];

    row_now(plot, asked, cells);
    asked->answer = ask_plot(plot, asked, cells);
    return before;
}

/* Whether two are the same question of the same row, as it was typed and as it is now, asked in the same way. */
static bool same_asked(const struct plot *plot, const struct asked *a, const struct asked *b)
{
    uint32_t cells_a[ROW_ROOM], cells_b[ROW_ROOM];
    size_t bytes = a->cell_count * sizeof *cells_a;

    row_now(plot, a, cells_a);
    row_now(plot, b, cells_b);
    return strcmp(a->label, b->label) == 0 && a->allowance == b->allowance && a->unlisted == b->unlisted &&
           a->cell_count == b->cell_count && memcmp(a->cells, b->cells, bytes) == 0 &&
           memcmp(cells_a, cells_b, bytes) == 0;
}

static void drop_at(struct desk *desk, size_t i)
{
    desk->asked_count--;
    memmove(&desk->asked[i], &desk->asked[i + 1], (desk->asked_count - i) * sizeof *desk->asked);
}

void remember(struct desk *desk, struct asked *asked)
{
    for (size_t i = desk->asked_count; i-- > 0;)
        if (same_asked(&desk->plot, &desk->asked[i], asked)) {
            asked->fill_count = desk->asked[i].fill_count;
            drop_at(desk, i);
        }
    if (desk->asked_count == ASKED) {
        fputs("no longer asked again: ", desk->out);
        print_asked(desk->out, &desk->plot, &desk->asked[0]);
        fputc('\n', desk->out);
        drop_at(desk, 0);
    }
    desk->asked[desk->asked_count++] = *asked;
}

unsigned drop_asked(struct desk *desk, const char *label)
{
    unsigned dropped = 0;

    for (size_t i = desk->asked_count; i-- > 0;)
        if (!label || strcmp(desk->asked[i].label, label) == 0) {
            drop_at(desk, i);
            dropped++;
        }
    return dropped;
}

void forget_fill(struct desk *desk)
{
    for (size_t i = 0; i < desk->asked_count; i++)
        if (desk->asked[i].fill_count > desk->plot.fill_count)
            desk->asked[i].fill_count = desk->plot.fill_count;
    for (size_t later = desk->asked_count; later-- > 0;)
        for (size_t i = later; i-- > 0;)
            if (same_asked(&desk->plot, &desk->asked[i], &desk->asked[later])) {
                desk->asked[later].fill_count = desk->asked[i].fill_count;
                drop_at(desk, i);
                later--; /* it has moved up */
            }
}

void print_answer(FILE *out, const struct answer *answer)
{
    static const char *const names[] = {
        [PLOTASK_FALSE] = "false", [PLOTASK_UNKNOWN] = "unknown", [PLOTASK_TRUE] = "true"};

    if (answer->refusal)
        fprintf(out, "refused %u", (unsigned)answer->refusal);
    else
        fprintf(out, "%s, %u %s%s", names[answer->truth], COUNTED(answer->looks, "look"));
}

void print_asked(FILE *out, const struct plot *plot, const struct asked *asked)
{
    uint32_t cells[ROW_ROOM];

    row_now(plot, asked, cells);
    fputs(asked->label, out);
    print_cells(out, cells, asked->cell_count);
    if (asked->allowance != ALLOWANCE)
        fprintf(out, " within %u", (unsigned)asked->allowance);
    if (asked->unlisted)
        fputs(" unlisted", out);
    if (memcmp(cells, asked->cells, asked->cell_count * sizeof *cells) != 0) {
        fputs(" (asked of", out);
        print_cells(out, asked->cells, asked->cell_count);
        fputc(')', out);
    }
}

static void say_now(struct desk *desk, const char *what, const struct asked *asked, const struct answer *before)
{
    fprintf(desk->out, "%s: ", what);
    print_asked(desk->out, &desk->plot, asked);
    fputs(": ", desk->out);
    print_answer(desk->out, &asked->answer);
    fputs("; before: ", desk->out);
    print_answer(desk->out, before);
    fputc('\n', desk->out);
}

static bool settled(const struct answer *answer)
{
    return !answer->refusal && answer->truth != PLOTASK_UNKNOWN;
}

static bool same_verdict(const struct answer *a, const struct answer *b)
{
    return a->refusal == b->refusal && (a->refusal || a->truth == b->truth);
}

/* What a fill did to a question. By the rules the last two cannot happen. */
enum effect { STAYED, ANSWERED, SETTLED, DEARER, UNSETTLED, EFFECTS };

static enum effect effect_of(const struct answer *before, const struct answer *now)
{
    if (before->refusal)
        return now->refusal ? STAYED : ANSWERED;
    if (now->refusal || (settled(before) && !same_verdict(before, now)))
        return UNSETTLED;
    if (now->looks > before->looks)
        return DEARER;
    return same_verdict(before, now) ? STAYED : SETTLED;
}

void say_settled(struct desk *desk)
{
    static const char *const names[] = {[ANSWERED] = "now within its allowance",
                                        [SETTLED] = "became settled",
                                        [DEARER] = "TAKES MORE LOOKS",
                                        [UNSETTLED] = "UNSETTLED"};
    unsigned counts[EFFECTS] = {0};

    for (size_t i = 0; i < desk->asked_count; i++) {
        struct answer before = renew(&desk->plot, &desk->asked[i]);
        enum effect effect = effect_of(&before, &desk->asked[i].answer);
        counts[effect]++;
        if (effect != STAYED)
            say_now(desk, names[effect], &desk->asked[i], &before);
    }
    if (desk->asked_count == 0 || counts[UNSETTLED] > 0)
        return;
    fputs(counts[STAYED] == desk->asked_count ? "no question became settled, and no verdict was unsettled\n"
                                              : "no verdict was unsettled\n",
          desk->out);
}

unsigned say_changes(struct desk *desk)
{
    unsigned changed = 0;

    for (size_t i = 0; i < desk->asked_count; i++) {
        struct answer before = renew(&desk->plot, &desk->asked[i]);
        if (same_verdict(&before, &desk->asked[i].answer))
            continue;
        say_now(desk, "changed", &desk->asked[i], &before);
        changed++;
    }
    return changed;
}
