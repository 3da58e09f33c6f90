#include "question.h"

#include <string.h>

/* What a value above 999999, or a mark, is read as where a term should stand. */
static const uint32_t no_term = UINT32_MAX;

/* A name after `some` or `every`, and the variable that stands for it. */
struct bound {
    char name[NAME_BYTES];
    uint32_t variable;
};

/* The text still to be read, and the nodes made so far, numbered as they are met: a child after its parent. */
struct reading {
    const char *at;
    const struct sheets *sheets;
    uint32_t *words;
    size_t nodes;
    bool written[PLOTASK_VARIABLES]; /* the variables that the text writes as vN */
    struct bound bound[PLOTASK_VARIABLES];
    size_t bound_count; /* the names of the quantifiers around the text to be read, from the outermost on */
    bool failed;
};

static void find_written(struct reading *r)
{
    const char *at = r->at;
    char name[NAME_BYTES];
    uint32_t variable;

    while (*at != '\0') {
        if (!scan_name(&at, name))
            at++;
        else if (number_in_name(name, 'v', &variable) && variable < PLOTASK_VARIABLES)
            r->written[variable] = true;
    }
}

static void expect(struct reading *r, char sign)
{
    if (!scan_sign(&r->at, sign))
        r->failed = true;
}

static uint32_t bound_variable(struct reading *r, const char *name)
{
    for (size_t i = r->bound_count; i > 0; i--)
        if (strcmp(r->bound[i - 1].name, name) == 0)
            return r->bound[i - 1].variable;
    r->failed = true;
    return 0;
}

static uint32_t term(struct reading *r)
{
    char name[NAME_BYTES];
    uint32_t number;

    if (scan_number(&r->at, &number))
        return number < PLOTASK_CONSTANTS ? number : no_term;
    if (!scan_name(&r->at, name)) {
        r->failed = true;
        return 0;
    }
    if (number_in_name(name, 'v', &number))
        return number < PLOTASK_VARIABLES ? PLOTASK_VARIABLE(number) : no_term;
    if (number_in_name(name, 'm', &number))
        return no_term;
    return PLOTASK_VARIABLE(bound_variable(r, name));
}

static bool is_free(const struct reading *r, uint32_t variable)
{
    for (size_t i = 0; i < r->bound_count; i++)
        if (r->bound[i].variable == variable)
            return false;
    return !r->written[variable];
}

/* Binds a name to a variable that the text does not write and no quantifier around it binds. */
static uint32_t bind_name(struct reading *r, const char *name)
{
    for (uint32_t variable = 0; variable < PLOTASK_VARIABLES; variable++) {
        if (is_free(r, variable)) {
            struct bound *bound = &r->bound[r->bound_count++];
            strcpy(bound->name, name);
            bound->variable = variable;
            return variable;
        }
    }
    r->failed = true;
    return 0;
}

static uint32_t node(struct reading *r);

/* `some(x, ..)` or `every(v1, ..)`: a name is bound up to the closing sign. */
static void read_quantifier(struct reading *r, uint32_t *words)
{
    size_t outside = r->bound_count;
    char name[NAME_BYTES];
    uint32_t mark;

    if (!scan_name(&r->at, name) || number_in_name(name, 'm', &mark)) {
        r->failed = true;
        return;
    }
    if (!number_in_name(name, 'v', &words[1]))
        words[1] = bind_name(r, name);
    expect(r, ',');
    words[2] = node(r);
    r->bound_count = outside;
}

static uint32_t sheet(struct reading *r)
{
    char name[NAME_BYTES];
    uint32_t number;

    if (scan_number(&r->at, &number))
        return number;
    if (!scan_name(&r->at, name) || sheet_by_name(r->sheets, name) == r->sheets->count) {
        r->failed = true;
        return 0;
    }
    return sheet_by_name(r->sheets, name);
}

/* `in(sheet, term, ..)`, with a term for each column of the sheet, if there is such a sheet. */
static void read_atom(struct reading *r, uint32_t *words)
{
    size_t j = 2;

    words[1] = sheet(r);
    while (!r->failed && j < PLOTASK_NODE_WORDS && scan_sign(&r->at, ','))
        words[j++] = term(r);
    if (words[1] < r->sheets->count && j - 2 != r->sheets->columns[words[1]])
        r->failed = true;
}

static void read_rest(struct reading *r, uint32_t *words)
{
    switch (words[0]) {
    case PLOTASK_STANDS:
        read_atom(r, words);
        break;
    case PLOTASK_EQUAL:
        words[1] = term(r);
        expect(r, ',');
        words[2] = term(r);
        break;
    case PLOTASK_NOT:
        words[1] = node(r);
        break;
    case PLOTASK_AND:
    case PLOTASK_OR:
        words[1] = node(r);
        expect(r, ',');
        words[2] = node(r);
        break;
    case PLOTASK_SOME:
    case PLOTASK_EVERY:
        read_quantifier(r, words);
        break;
    default:
        r->failed = true;
    }
}

static uint32_t kind_of(const char *name)
{
    static const char *const names[] = {"in", "equal", "not", "and", "or", "some", "every"};

    for (uint32_t i = 0; i < 7; i++)
        if (strcmp(names[i], name) == 0)
            return i + PLOTASK_STANDS;
    return 0;
}

/* Reads one node with all that is below it, and returns its number. */
static uint32_t node(struct reading *r)
{
    char name[NAME_BYTES];

    if (r->failed || r->nodes == PLOTASK_NODES || !scan_name(&r->at, name)) {
        r->failed = true;
        return 0;
    }
    uint32_t number = (uint32_t)r->nodes++;
    uint32_t *words = r->words + number * PLOTASK_NODE_WORDS;

    memset(words, 0, PLOTASK_NODE_WORDS * sizeof *words);
    words[0] = kind_of(name);
    expect(r, '(');
    read_rest(r, words);
    expect(r, ')');
    return number;
}

size_t scan_question(const char **at, const struct sheets *sheets, uint32_t words[PLOTASK_QUERY_WORDS])
{
    struct reading r = {.at = *at, .sheets = sheets, .words = words};

    find_written(&r);
    node(&r);
    if (r.failed)
        return 0;
    *at = r.at;
    return r.nodes * PLOTASK_NODE_WORDS;
}

bool is_plain(const uint32_t *words, size_t length)
{
    static const bool plain[PLOTASK_EVERY + 1] = {
        [PLOTASK_STANDS] = true, [PLOTASK_EQUAL] = true, [PLOTASK_AND] = true,
        [PLOTASK_OR] = true,     [PLOTASK_SOME] = true,
    };
    size_t node = 0;

    while (node < length && plain[words[node]])
        node += PLOTASK_NODE_WORDS;
    return node == length;
}
