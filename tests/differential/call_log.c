/* The calls on a log. */
#include "calls.h"

/* An entry of as many cells is long. */
enum { MANY_CELLS = 500 };

static size_t count_held(const struct any_plot *plot, uint32_t null)
{
    size_t held = 0;
    for (size_t i = 0; i < plot->header[HEADER_USED]; i++)
        held += plot->words[i] == CONSTANTS + null;
    return held;
}

/* A length with the words in use and with this need: enough, too few or none. */
static size_t any_log_length(struct random *random, const struct any_log *log, size_t needed)
{
    switch (below(random, 8)) {
    case 0:
    case 1:
        return needed;
    case 2:
        return needed - 1;
    case 3:
        return log->used;
    case 4:
        return log->used + below(random, needed - log->used);
    default:
        return needed + below(random, LOG_ROOM - needed < 20 ? LOG_ROOM - needed + 1 : 20);
    }
}

/* The log itself, or a copy that is left behind if log or plot is to be damaged. */
static struct any_log *log_to_lend(struct any_log *log, bool copied)
{
    static struct any_log copy;
    if (!copied)
        return log;
    copy = *log;
    return &copy;
}

static void note_logged(uint32_t number, const struct any_log *log, size_t used, size_t held, bool by_itself)
{
    size_t needed = used + 2 + held;
    if (number == 0 && needed == log->length)
        note(ENTRY_FITS);
    if (number == 0 && held >= MANY_CELLS)
        note(ENTRY_OF_MANY_CELLS);
    if (number == 0 && by_itself)
        note(LOGGED_BY_ITSELF);
    if (number == 47 && needed == log->length + 1)
        note(ENTRY_SHORT_BY_ONE);
    if (number == 47 && used > log->length)
        note(FILL_USED_BEYOND_LOG);
}

void try_substitute_logged(struct random *random, const struct palette *palette, struct any_plot *plot,
                           struct any_log *log)
{
    uint32_t count;
    uint32_t null = null_to_replace(random, palette, plot);
    uint32_t cell = any_replacement(random, palette, null);
    size_t held = count_held(plot, null);
    if (log->used + 2 + held > LOG_ROOM)
        log->used = 0;
    log->length = any_log_length(random, log, log->used + 2 + held);
    struct any_plot *lent = plot_to_lend(random, plot);
    bool damaged = one_in(random, 6);
    struct any_log *lent_log = log_to_lend(log, lent != plot || damaged);
    if (damaged)
        damage_log(random, plot, lent_log);
    size_t used = lent_log->used;
    uint32_t number = both_substitute_logged(lent, lent_log, null, cell, &count);
    if (number == 0 && used > lent_log->length)
        fail("a logged substitution is accepted without room for its entry");
    if (lent == plot)
        note_logged(number, lent_log, used, held, cell == CONSTANTS + null);
}

/* Notes what is odd about the places of an entry that was undone. */
static void note_places(const uint32_t *places, size_t count)
{
    bool seen[MOST_WORDS] = {false};
    bool twice = false;
    bool falls = false;
    for (size_t i = 0; i < count; i++) {
        twice |= seen[places[i]];
        falls |= i > 0 && places[i] < places[i - 1];
        seen[places[i]] = true;
    }
    if (count == 0)
        note(ENTRY_OF_NO_CELLS);
    if (twice)
        note(PLACE_TWICE);
    if (falls)
        note(PLACES_NOT_RISING);
}

/* An undamaged log is empty, or its last entry is undone and no longer in use. */
static void check_undone(uint32_t number, const struct any_log *log, size_t used, uint32_t count)
{
    if (number != (used == 0 ? 48 : 0))
        fail("a log of the plot is not undone, or an empty one is");
    if (number == 0 && log->used + 2 + count != used)
        fail("an undone entry is still in use");
    if (number == 0)
        note_places(log->words + log->used, count);
}

static void check_damaged(uint32_t number, enum log_damage damage)
{
    static const enum named_case cases[] = {
        [USED_BEYOND_LENGTH] = UNDO_USED_BEYOND_LOG,
        [USED_ONE] = ONE_WORD_IN_USE,
        [NUMBER_OVER_BY_ONE] = ENTRY_CUT_SHORT,
        [NUMBER_NEAR_2_TO_32] = ENTRY_OF_2_TO_32,
        [PLACE_IS_RELATION] = PLACE_OF_RELATION,
        [PLACE_IS_BEHIND] = PLACE_BEHIND_USE,
        [NULL_IS_0] = ENTRY_WITH_NULL_0,
        [NULL_IS_201] = ENTRY_WITH_NULL_201,
        [NULL_IS_ITS_CELL] = ENTRY_WITH_CELL,
    };
    if (damage == CHANGED_AT_RANDOM)
        return;
    if (number != 49)
        fail("a damaged log is not refused with 49");
    note(cases[damage]);
}

void try_undo(struct random *random, struct any_plot *plot, struct any_log *log)
{
    uint32_t count;
    if (one_in(random, 3))
        make_log(random, plot, log);
    log->length = log->used + (one_in(random, 2) ? 0 : below(random, LOG_ROOM - log->used < 20 ? 1 : 20));
    struct any_plot *lent = plot_to_lend(random, plot);
    bool damaged = one_in(random, 2);
    struct any_log *lent_log = log_to_lend(log, lent != plot || damaged);
    enum log_damage damage = damaged ? damage_log(random, plot, lent_log) : CHANGED_AT_RANDOM;
    size_t used = lent_log->used;
    uint32_t number = both_undo(lent, lent_log, &count);
    if (number == 41 || lent != plot)
        return;
    if (damaged)
        check_damaged(number, damage);
    else
        check_undone(number, lent_log, used, count);
}
