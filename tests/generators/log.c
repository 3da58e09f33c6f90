/* Logs. */
#include "generate.h"

void make_fresh_log(struct random *random, struct any_log *log, size_t length)
{
    for (size_t i = 0; i < length; i++)
        log->words[i] = one_in(random, 2) ? odd_number(random, (uint32_t)i) : below(random, 8);
    log->length = length;
    log->used = 0;
}

/* Lists the places of an undamaged plot's cells, and returns their number. */
static size_t list_places(const struct any_plot *plot, uint32_t *places)
{
    size_t count = 0;
    for (uint32_t at = 0; at < plot->header[HEADER_USED];) {
        uint32_t end = at + 1 + arity_of(plot->header, plot->words[at]);
        while (++at < end)
            places[count++] = at;
    }
    return count;
}

/* Chooses among the places: none, all or some of them in rising order, or some in any order and more than once. */
static size_t choose_places(struct random *random, const uint32_t *places, size_t count, uint32_t *chosen)
{
    size_t chosen_count = 0;
    size_t manner = below(random, 8);
    if (manner == 0 || count == 0)
        return 0;
    if (manner <= 2) {
        for (size_t most = 1 + below(random, 8); chosen_count < most; chosen_count++)
            chosen[chosen_count] = places[below(random, count)];
        return chosen_count;
    }
    for (size_t i = 0; i < count; i++)
        if (manner == 3 || one_in(random, manner))
            chosen[chosen_count++] = places[i];
    return chosen_count;
}

void make_log(struct random *random, const struct any_plot *plot, struct any_log *log)
{
    static uint32_t places[PLOT_ROOM];
    static uint32_t chosen[PLOT_ROOM];
    size_t place_count = list_places(plot, places);
    make_fresh_log(random, log, 40);
    for (size_t entries = below(random, 4); entries > 0; entries--) {
        size_t count = choose_places(random, places, place_count, chosen);
        if (log->used + count + 2 > LOG_ROOM)
            break;
        for (size_t i = 0; i < count; i++)
            log->words[log->used++] = chosen[i];
        log->words[log->used++] = one_in(random, 4) ? NULLS : 1 + below(random, NULLS);
        log->words[log->used++] = (uint32_t)count;
    }
    if (log->length < log->used)
        log->length = log->used;
}

/*
 * Words in use that the log lacks: because it is cut short, or by a few, by a multiple of 2^32, or so that their sum
 * with an entry's words overflows.
 */
static void use_beyond_length(struct random *random, struct any_log *log)
{
    size_t choice = below(random, 5);
    if (choice < 2 && log->used > 0)
        log->length = log->used - 1 - (one_in(random, 3) ? below(random, log->used) : 0);
    else if (choice < 3)
        log->used = log->length + 1 + below(random, 20);
    else if (choice < 4)
        log->used += ((size_t)1 << 32) * (1 + below(random, 3));
    else
        log->used = SIZE_MAX - below(random, 20);
}

static uint32_t place_of_relation(struct random *random, const struct any_plot *plot)
{
    uint32_t at = 0;
    for (size_t rows = below(random, 20); rows > 0; rows--) {
        uint32_t next = at + 1 + arity_of(plot->header, plot->words[at]);
        at = next < plot->header[HEADER_USED] ? next : 0;
    }
    return at;
}

static uint32_t place_behind(struct random *random, const struct any_plot *plot)
{
    uint32_t used = plot->header[HEADER_USED];
    switch (below(random, 4)) {
    case 0:
        return used + 1 + below(random, 10);
    case 1:
        return UINT32_MAX - below(random, 3);
    case 2:
        return used > MOST_WORDS ? used : MOST_WORDS;
    default:
        return used;
    }
}

/* What is to be damaged: of a fresh log the words in use alone, of an entry without places none of them. */
static enum log_damage any_damage(struct random *random, const struct any_log *log)
{
    enum log_damage damage = (enum log_damage)below(random, CHANGED_AT_RANDOM + 1);
    if (log->used == 0)
        return damage < PLACE_IS_RELATION ? USED_BEYOND_LENGTH : USED_ONE;
    if (log->words[log->used - 1] == 0 && (damage == PLACE_IS_RELATION || damage == PLACE_IS_BEHIND))
        return NULL_IS_0;
    return damage;
}

static void change_at_random(struct random *random, struct any_log *log, size_t entry)
{
    size_t index = entry + below(random, log->used - entry);
    if (one_in(random, 3))
        log->used = one_in(random, 2) ? index : log->used - 1;
    else
        log->words[index] = odd_number(random, log->words[index]);
}

enum log_damage damage_log(struct random *random, const struct any_plot *plot, struct any_log *log)
{
    enum log_damage damage = any_damage(random, log);
    size_t used = log->used;
    size_t count = used > 0 ? log->words[used - 1] : 0;
    size_t entry = used > 0 ? used - 2 - count : 0;
    switch (damage) {
    case USED_BEYOND_LENGTH:
        use_beyond_length(random, log);
        break;
    case USED_ONE:
        log->used = 1;
        if (log->length < 1)
            log->length = 1;
        break;
    case NUMBER_OVER_BY_ONE:
        log->words[used - 1] = (uint32_t)used - 1;
        break;
    case NUMBER_NEAR_2_TO_32:
        log->words[used - 1] = UINT32_MAX - below(random, 4);
        break;
    case PLACE_IS_RELATION:
        log->words[entry + below(random, count)] = place_of_relation(random, plot);
        break;
    case PLACE_IS_BEHIND:
        log->words[entry + below(random, count)] = place_behind(random, plot);
        break;
    case NULL_IS_0:
        log->words[used - 2] = 0;
        break;
    case NULL_IS_201:
        log->words[used - 2] = NULLS + 1;
        break;
    case NULL_IS_ITS_CELL:
        log->words[used - 2] += CONSTANTS;
        break;
    case CHANGED_AT_RANDOM:
        change_at_random(random, log, entry);
    }
    return damage;
}
