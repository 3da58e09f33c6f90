#include "spelling.h"

#include <stdarg.h>
#include <string.h>

/* More names than there are variables, some of which start alike, or mean something elsewhere in a line. */
static const char *const names[] = {"x",  "y",    "a",   "ab",    "abc",    "lamp", "in",  "some",
                                    "V0", "v",    "m",   "m4x",   "within", "v1_",  "not", "abcdefghijklmnop",
                                    "q",  "back", "x_1", "hangs", "every",  "xx"};

enum { NAMES = sizeof names / sizeof *names };

/* A query being spelled. */
struct speller {
    struct random *random;
    const struct any_query *query;
    const struct plot *sheets;
    struct spelling *spelling;
    bool is_short;
    bool named[MOST_NODES + 1];       /* by its node: whether a quantifier's variable gets a name */
    uint32_t written;                 /* a bit for each variable that the text writes by its number */
    const char *open[MOST_NODES + 1]; /* the names above the node that is spelled */
    size_t open_count;
};

/* What stands for each variable at a node: a name, or null for its number. */
struct scope {
    const char *names[VARIABLES];
    uint32_t exhausted; /* a bit for each variable whose name got none of the desk's */
    uint32_t bound;
};

static const uint32_t *node_words(const struct speller *speller, uint32_t node)
{
    return speller->query->words + node * NODE_WORDS;
}

static bool is_quantifier(uint32_t kind)
{
    return kind == SOME || kind == EVERY;
}

static bool is_variable(uint32_t term)
{
    return term >= FIRST_VARIABLE && term < FIRST_VARIABLE + VARIABLES;
}

/* The terms of a leaf, and how many it has. One of a sheet that the plot lacks may have any number of them. */
static size_t terms_of(const struct speller *speller, const uint32_t *words, const uint32_t **terms)
{
    const struct plotask_header *header = &speller->sheets->header;

    *terms = words + (words[0] == ROW_STANDS ? 2 : 1);
    if (words[0] == EQUAL)
        return 2;
    return words[1] < header->relations ? header->arities[words[1]] : words[1] % (MOST_COLUMNS + 1);
}

/* Decides which quantifiers get names, and finds the variables that the text will write by their numbers. */
static void choose_names(struct speller *speller, uint32_t node, uint32_t with_name)
{
    const uint32_t *words = node_words(speller, node), *terms;

    if (words[0] == ROW_STANDS || words[0] == EQUAL) {
        for (size_t count = terms_of(speller, words, &terms); count > 0; count--, terms++)
            if (is_variable(*terms) && !(with_name >> (*terms - FIRST_VARIABLE) & 1))
                speller->written |= 1u << (*terms - FIRST_VARIABLE);
    } else if (is_quantifier(words[0])) {
        bool named = words[1] < VARIABLES && !one_in(speller->random, 4);
        speller->named[node] = named;
        if (named)
            with_name |= 1u << words[1];
        else if (words[1] < VARIABLES) {
            with_name &= ~(1u << words[1]);
            speller->written |= 1u << words[1];
        }
        choose_names(speller, words[2], with_name);
    } else {
        choose_names(speller, words[1], with_name);
        if (words[0] != NOT)
            choose_names(speller, words[2], with_name);
    }
}

__attribute__((format(printf, 2, 3))) static void put_text(struct speller *speller, const char *format, ...)
{
    struct spelling *spelling = speller->spelling;
    va_list arguments;

    va_start(arguments, format);
    int length = vsnprintf(spelling->text + spelling->length, TEXT_ROOM - spelling->length, format, arguments);
    va_end(arguments);
    spelling->length += (size_t)length;
    if (spelling->length >= TEXT_ROOM)
        spelling->length = TEXT_ROOM - 1;
}

static void put_blanks(struct speller *speller)
{
    if (speller->is_short)
        return;
    for (size_t blanks = one_in(speller->random, 2) ? 0 : below(speller->random, 3); blanks > 0; blanks--)
        put_text(speller, "%s", one_in(speller->random, 8) ? "\t" : " ");
}

static void put_sign(struct speller *speller, char sign)
{
    put_blanks(speller);
    put_text(speller, "%c", sign);
    put_blanks(speller);
}

/* Notes the number that has just been spelled. */
static void note_spelled(struct speller *speller, int what, uint32_t number, uint32_t bound, size_t at)
{
    struct spelling *spelling = speller->spelling;

    spelling->spelled[spelling->spelled_count++] = (struct spelled){what, number, bound, at, spelling->length - at};
}

static void put_sheet(struct speller *speller, uint32_t sheet, uint32_t bound)
{
    size_t at = speller->spelling->length;

    if (sheet < speller->sheets->header.relations && !one_in(speller->random, 4))
        put_text(speller, "%s", speller->sheets->sheets[sheet].name);
    else
        put_text(speller, "%s%u", one_in(speller->random, 9) ? "00" : "", (unsigned)sheet);
    note_spelled(speller, SPELLED_SHEET, sheet, bound, at);
}

/* Spells a term, and returns it as it is in the words. */
static uint32_t put_term(struct speller *speller, const struct scope *scope, uint32_t term)
{
    size_t at = speller->spelling->length;
    uint32_t variable = term - FIRST_VARIABLE;

    if (is_variable(term) && scope->names[variable])
        put_text(speller, "%s", scope->names[variable]);
    else if (term >= FIRST_VARIABLE)
        put_text(speller, "v%s%u", one_in(speller->random, 9) ? "0" : "", (unsigned)variable);
    else if (term >= CONSTANTS && one_in(speller->random, 2))
        put_text(speller, "m%u", (unsigned)(term - CONSTANTS));
    else
        put_text(speller, "%s%u", one_in(speller->random, 9) ? "0" : "", (unsigned)term);
    if (is_variable(term) && scope->names[variable] && (scope->exhausted >> variable & 1))
        term = FIRST_VARIABLE + VARIABLES;
    note_spelled(speller, SPELLED_TERM, term, scope->bound, at);
    return term;
}

static bool is_open(const struct speller *speller, const char *name)
{
    for (size_t i = 0; i < speller->open_count; i++)
        if (strcmp(speller->open[i], name) == 0)
            return true;
    return false;
}

/* A name that stands for no other variable here; it may hide one that nothing below can mean. */
static const char *any_name(const struct speller *speller, const struct scope *scope, uint32_t variable)
{
    size_t name = below(speller->random, NAMES);

    for (;; name = (name + 1) % NAMES) {
        bool taken = false;
        for (uint32_t other = 0; other < VARIABLES; other++)
            taken |= other != variable && scope->names[other] && strcmp(scope->names[other], names[name]) == 0;
        if (!taken)
            return names[name];
    }
}

/* Whether the desk has no variable for one more name: each name that is open has one, and so has each number written. */
static bool are_variables_used_up(const struct speller *speller)
{
    size_t used = 0;

    for (uint32_t variable = 0; variable < VARIABLES; variable++)
        used += speller->written >> variable & 1;
    for (size_t i = 0; i < speller->open_count; i++) {
        bool again = false;
        for (size_t j = 0; j < i; j++)
            again |= strcmp(speller->open[i], speller->open[j]) == 0;
        used += !again;
    }
    return used >= VARIABLES;
}

/* Spells a quantifier's variable, enters it in the scope, and returns it as it is in the words. */
static uint32_t put_variable(struct speller *speller, uint32_t node, struct scope *scope, uint32_t variable)
{
    size_t at = speller->spelling->length;
    uint32_t in_words = variable;

    if (speller->named[node]) {
        const char *name = any_name(speller, scope, variable);
        put_text(speller, "%s", name);
        scope->names[variable] = name;
        scope->exhausted &= ~(1u << variable);
        if (!is_open(speller, name) && are_variables_used_up(speller)) {
            scope->exhausted |= 1u << variable;
            speller->spelling->out_of_variables = true;
            in_words = VARIABLES;
        }
        speller->open[speller->open_count++] = name;
    } else {
        put_text(speller, "v%u", (unsigned)variable);
        if (variable < VARIABLES)
            scope->names[variable] = NULL;
    }
    note_spelled(speller, SPELLED_VARIABLE, in_words, scope->bound, at);
    if (variable < VARIABLES)
        scope->bound |= 1u << variable;
    return in_words;
}

static void put_node(struct speller *speller, uint32_t node, struct scope scope);

/* Spells a node's child, whose number is that of the next node. */
static void put_child(struct speller *speller, size_t to, uint32_t child, const struct scope *scope)
{
    speller->spelling->words[to] = (uint32_t)speller->spelling->nodes;
    put_node(speller, child, *scope);
}

static void put_leaf(struct speller *speller, size_t to, const uint32_t *words, const struct scope *scope)
{
    const uint32_t *terms;
    size_t count = terms_of(speller, words, &terms);

    if (words[0] == ROW_STANDS) {
        speller->spelling->words[++to] = words[1];
        put_sheet(speller, words[1], scope->bound);
    }
    for (size_t i = 0; i < count; i++) {
        if (i > 0 || words[0] == ROW_STANDS)
            put_sign(speller, ',');
        uint32_t term = put_term(speller, scope, terms[i]);
        speller->spelling->words[++to] = term;
    }
}

static void put_node(struct speller *speller, uint32_t node, struct scope scope)
{
    static const char *const kinds[] = {"", "in", "equal", "not", "and", "or", "some", "every"};
    struct spelling *spelling = speller->spelling;
    const uint32_t *words = node_words(speller, node);
    size_t to = spelling->nodes * NODE_WORDS, open = speller->open_count;

    spelling->node_at[spelling->nodes++] = spelling->length;
    spelling->words[to] = words[0];
    put_text(speller, "%s", kinds[words[0]]);
    put_sign(speller, '(');
    if (words[0] == ROW_STANDS || words[0] == EQUAL) {
        put_leaf(speller, to, words, &scope);
    } else if (is_quantifier(words[0])) {
        spelling->words[to + 1] = put_variable(speller, node, &scope, words[1]);
        put_sign(speller, ',');
        put_child(speller, to + 2, words[2], &scope);
    } else {
        put_child(speller, to + 1, words[1], &scope);
        if (words[0] != NOT) {
            put_sign(speller, ',');
            put_child(speller, to + 2, words[2], &scope);
        }
    }
    put_blanks(speller);
    put_text(speller, ")");
    speller->open_count = open;
}

void spell(struct random *random, const struct any_query *query, const struct plot *sheets, bool is_short,
           struct spelling *spelling)
{
    static struct speller speller;

    speller = (struct speller){
        .random = random, .query = query, .sheets = sheets, .spelling = spelling, .is_short = is_short};
    memset(spelling, 0, sizeof *spelling);
    choose_names(&speller, 0, 0);
    put_node(&speller, 0, (struct scope){.bound = 0});
}

void misspell(struct random *random, const uint32_t *header, struct any_query *query)
{
    static const uint32_t wrong[] = {
        CONSTANTS,          CONSTANTS + 1, CONSTANTS + NULLS, CONSTANTS + NULLS + 1, FIRST_VARIABLE + VARIABLES,
        FIRST_VARIABLE + 99};
    uint32_t *words = query->words + below(random, query->length / NODE_WORDS) * NODE_WORDS;
    bool stands = words[0] == ROW_STANDS && words[1] < header[HEADER_RELATIONS];

    if (is_quantifier(words[0])) {
        words[1] = VARIABLES + below(random, 3);
    } else if (stands && one_in(random, 3)) {
        words[1] = header[HEADER_RELATIONS] + below(random, 30);
    } else if (stands || words[0] == EQUAL) {
        uint32_t *terms = words + (stands ? 2 : 1);
        uint32_t *term = terms + below(random, stands ? arity_of(header, words[1]) : 2);
        *term = one_in(random, 2) ? FIRST_VARIABLE + below(random, VARIABLES) : wrong[below(random, 6)];
    }
}

const struct spelled *first_fault(const struct spelling *spelling, const uint32_t *header, size_t cells,
                                  uint32_t *refusal)
{
    for (size_t i = 0; i < spelling->spelled_count; i++) {
        const struct spelled *spelled = &spelling->spelled[i];
        uint32_t number = spelled->number, variable = number - FIRST_VARIABLE;
        *refusal = 0;
        if (spelled->what == SPELLED_SHEET && number >= header[HEADER_RELATIONS])
            *refusal = 25;
        else if (spelled->what == SPELLED_VARIABLE && number >= VARIABLES)
            *refusal = 24;
        else if (spelled->what == SPELLED_TERM && number >= CONSTANTS && !is_variable(number))
            *refusal = 22;
        else if (spelled->what == SPELLED_TERM && is_variable(number) && variable >= cells &&
                 !(spelled->bound >> variable & 1))
            *refusal = 24;
        if (*refusal != 0)
            return spelled;
    }
    return NULL;
}
