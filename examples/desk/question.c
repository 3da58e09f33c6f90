#include "question.h"
#include "counted.h"
#include "sheets.h"

#include <string.h>

/* A name after some or every, within its brackets. */
struct binding {
    struct word name;
    uint32_t variable;
};

struct reading {
    struct line *line;
    const struct plot *plot;
    struct tree *tree;
    uint32_t written; /* a bit for each variable that the question writes by its number */
    struct binding bindings[PLOTASK_NODES + 1];
    size_t bound;
};

static const char *const kinds[] = {
    [PLOTASK_STANDS] = "in", [PLOTASK_EQUAL] = "equal", [PLOTASK_NOT] = "not",     [PLOTASK_AND] = "and",
    [PLOTASK_OR] = "or",     [PLOTASK_SOME] = "some",   [PLOTASK_EVERY] = "every",
};

static bool same_word(struct word a, struct word b)
{
    return a.length == b.length && memcmp(a.start, b.start, a.length) == 0;
}

static const struct binding *find_binding(const struct reading *r, struct word name)
{
    for (size_t i = r->bound; i > 0; i--)
        if (same_word(r->bindings[i - 1].name, name))
            return &r->bindings[i - 1];
    return NULL;
}

/* The variable for a name: the same one if it hides an outer name, else the highest that is free, or 16 if none is. */
static uint32_t variable_for(const struct reading *r, struct word name)
{
    const struct binding *hidden = find_binding(r, name);
    uint32_t taken = r->written;

    if (hidden)
        return hidden->variable;
    for (size_t i = 0; i < r->bound; i++)
        taken |= 1u << r->bindings[i].variable;
    for (uint32_t v = PLOTASK_VARIABLES; v > 0; v--)
        if (!(taken >> (v - 1) & 1))
            return v - 1;
    return PLOTASK_VARIABLES;
}

/* A bit for each variable that the rest of the line writes by its number. */
static uint32_t written_variables(struct line line)
{
    uint32_t written = 0;
    uint64_t number;

    while (!at_end(&line)) {
        struct word word = take_word(&line);
        if (word.length == 0)
            line.at++;
        else if (word_numbered(word, 'v', PLOTASK_VARIABLES - 1, &number))
            written |= 1u << number;
    }
    return written;
}

/* Sets a word of a node, and notes where in the line it is written. */
static void put(struct reading *r, size_t word, uint32_t number, size_t at)
{
    r->tree->words[word] = number;
    r->tree->at[word] = at;
}

/* A mark is no term, and neither is a number that is too large: plotask says so. */
static bool take_term(struct reading *r, size_t to)
{
    struct word word = take_word(r->line);
    const struct binding *binding = find_binding(r, word);
    uint64_t number;

    if (word_number(word, 0, PLOTASK_CONSTANTS - 1, &number))
        put(r, to, (uint32_t)number, word.at);
    else if (word_numbered(word, 'v', PLOTASK_VARIABLES - 1, &number))
        put(r, to, PLOTASK_VARIABLE(number), word.at);
    else if (word_numbered(word, 'm', PLOTASK_MARKS, &number))
        put(r, to, PLOTASK_MARK(number), word.at);
    else if (binding)
        put(r, to, PLOTASK_VARIABLE(binding->variable), word.at);
    else
        return expected(r->line, word.at, "a value, a variable such as v0, or a name after some or every");
    return true;
}

/* in(SHEET, TERM, ..): a term for each column, since a word that is left at 0 would be the value 0. */
static bool take_stands(struct reading *r, size_t node)
{
    const struct plotask_header *header = &r->plot->header;
    size_t at = next_at(r->line);
    uint32_t sheet, terms = 0;

    if (!take_sheet(r->line, r->plot, &sheet))
        return false;
    put(r, node + 1, sheet, at);
    bool exists = sheet < header->relations;
    uint32_t columns = exists ? header->arities[sheet] : PLOTASK_COLUMNS;
    for (; terms < columns && next_is(r->line, ','); terms++)
        if (!take_sign(r->line, ',') || !take_term(r, node + 2 + terms))
            return false;
    if (exists && terms < columns)
        return expected(r->line, r->line->at, "\",\" and a term, since %s has %u %s%s", r->plot->sheets[sheet].name,
                        COUNTED(columns, "column"));
    if (exists && next_is(r->line, ','))
        return expected(r->line, r->line->at, "\")\", since %s has %u %s%s", r->plot->sheets[sheet].name,
                        COUNTED(columns, "column"));
    return true;
}

/* A variable by its number, or a name that stands for one up to the closing bracket. */
static bool take_variable(struct reading *r, size_t to)
{
    struct line ahead = *r->line;
    struct word word = take_word(&ahead);
    char name[NAME_ROOM];
    uint64_t number;

    if (word_numbered(word, 'v', PLOTASK_VARIABLES - 1, &number)) {
        *r->line = ahead;
        put(r, to, (uint32_t)number, word.at);
        return true;
    }
    if (!take_name(r->line, "a variable, v0 to v15, or a name", name))
        return false;
    put(r, to, variable_for(r, word), word.at);
    r->bindings[r->bound++] = (struct binding){word, r->tree->words[to]};
    return true;
}

static bool take_node(struct reading *r);

/* A child: its number is that of the next node. */
static bool take_child(struct reading *r, size_t to)
{
    put(r, to, (uint32_t)r->tree->nodes, next_at(r->line));
    return take_node(r);
}

static bool take_rest(struct reading *r, size_t node)
{
    size_t bound = r->bound;
    bool taken;

    switch (r->tree->words[node]) {
    case PLOTASK_STANDS:
        return take_stands(r, node);
    case PLOTASK_EQUAL:
        return take_term(r, node + 1) && take_sign(r->line, ',') && take_term(r, node + 2);
    case PLOTASK_NOT:
        return take_child(r, node + 1);
    case PLOTASK_AND:
    case PLOTASK_OR:
        return take_child(r, node + 1) && take_sign(r->line, ',') && take_child(r, node + 2);
    default:
        taken = take_variable(r, node + 1) && take_sign(r->line, ',') && take_child(r, node + 2);
        r->bound = bound;
        return taken;
    }
}

static uint32_t kind_of(struct word word)
{
    for (uint32_t kind = PLOTASK_STANDS; kind <= PLOTASK_EVERY; kind++)
        if (word_is(word, kinds[kind]))
            return kind;
    return 0;
}

/* Reading ends at the 101st node, since the tree has no room for another. */
static bool take_node(struct reading *r)
{
    struct word word = take_word(r->line);
    uint32_t kind = kind_of(word);
    size_t node = r->tree->nodes * PLOTASK_NODE_WORDS;

    if (kind == 0)
        return expected(r->line, word.at, "in, equal, not, and, or, some or every");
    put(r, node, kind, word.at);
    return r->tree->nodes++ < PLOTASK_NODES && take_sign(r->line, '(') && take_rest(r, node) && take_sign(r->line, ')');
}

bool take_question(struct line *line, const struct plot *plot, struct tree *tree)
{
    struct reading r = {.line = line, .plot = plot, .tree = tree, .written = written_variables(*line)};

    memset(tree, 0, sizeof *tree);
    return take_node(&r) || tree->nodes > PLOTASK_NODES;
}

bool is_plain(const uint32_t *words, size_t count)
{
    for (size_t node = 0; node < count; node += PLOTASK_NODE_WORDS)
        if (words[node] == PLOTASK_NOT || words[node] == PLOTASK_EVERY)
            return false;
    return true;
}

bool is_kind(struct word word)
{
    return kind_of(word) != 0;
}
