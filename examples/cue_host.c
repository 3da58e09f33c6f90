/* A sample cue host: which lamps must be hired? Sheet 0 has the lamps that hang, sheet 1 those in the house's store. */
#include "plotask.h"

#include <stdio.h>

enum { HUNG = 0, STORE = 1 };

static struct plotask_header header;
static uint32_t plot[PLOTASK_WORDS];
static uint32_t list[PLOTASK_LIST_WORDS];

/* What can be taken back: the words of the log, and how many are in use. Few cells have marks here. */
static uint32_t fill_log[64];
static size_t fill_log_used;

enum { FILL_LOG_WORDS = sizeof fill_log / sizeof *fill_log };

/* Two sheets of one column, two rows: lamp 201 hangs; the store has one lamp, whose number is not known: a blank. */
static const uint8_t card[] = {0x02, 0x01, 0x01, 0x00, 0x02, 0x00, 0x01, 0x00, 0x00, 0xC9, 0x01, 0x00};

/* "The lamp hangs, and it is not in the store." The lamp is variable 0, the candidate's cell. */
static const uint32_t to_hire[4][PLOTASK_NODE_WORDS] = {
    {PLOTASK_AND, 1, 2},
    {PLOTASK_STANDS, HUNG, PLOTASK_VARIABLE(0)},
    {PLOTASK_NOT, 3},
    {PLOTASK_STANDS, STORE, PLOTASK_VARIABLE(0)},
};

/* "Some lamp hangs and is not in the store." The lamp is one of the plot's values; there is no candidate. */
static const uint32_t any_to_hire[5][PLOTASK_NODE_WORDS] = {
    {PLOTASK_SOME, 0, 1},
    {PLOTASK_AND, 2, 3},
    {PLOTASK_STANDS, HUNG, PLOTASK_VARIABLE(0)},
    {PLOTASK_NOT, 4},
    {PLOTASK_STANDS, STORE, PLOTASK_VARIABLE(0)},
};

static const char *reason(uint32_t refusal)
{
    switch (refusal) {
    case PLOTASK_NULL_ABSENT:
        return "the mark stands in no cell";
    case PLOTASK_BUDGET_SPENT:
        return "the looks exceed the allowance";
    case PLOTASK_NO_ROOM:
        return "the plot is full";
    case PLOTASK_LOG_TOO_SHORT:
        return "the log is full";
    case PLOTASK_LOG_EMPTY:
        return "there is no fill to take back";
    default:
        return "see enum plotask_refusal";
    }
}

/* Returns whether a call was refused, and says why. The plot is then as it was before. */
static int refused(uint32_t refusal)
{
    if (refusal == PLOTASK_DONE)
        return 0;
    printf("refused %u, %s\n", (unsigned)refusal, reason(refusal));
    return 1;
}

static void print_answer(uint32_t refusal, uint32_t truth, uint32_t looks)
{
    static const char *const names[] = {"false", "unknown", "true"};

    if (!refused(refusal))
        printf("%s, %u looks\n", names[truth], (unsigned)looks);
}

static void ask_to_hire(uint32_t lamp, uint32_t allowance)
{
    uint32_t truth = 0, looks = 0;

    printf("hire %u, with %u looks: ", (unsigned)lamp, (unsigned)allowance);
    uint32_t refusal = plotask_ask(PLOTASK_HEADER(&header), plot, PLOTASK_WORDS, &to_hire[0][0], 4 * PLOTASK_NODE_WORDS,
                                   &lamp, 1, list, PLOTASK_LIST_WORDS, allowance, &truth, &looks);
    print_answer(refusal, truth, looks);
}

/* A question for times at which the working list's memory is lent to something else. */
static void ask_any_to_hire(uint32_t allowance)
{
    uint32_t truth = 0, looks = 0;

    printf("hire any lamp, with %u looks and no list: ", (unsigned)allowance);
    uint32_t refusal = plotask_ask_unlisted(PLOTASK_HEADER(&header), plot, PLOTASK_WORDS, &any_to_hire[0][0],
                                            5 * PLOTASK_NODE_WORDS, NULL, 0, allowance, &truth, &looks);
    print_answer(refusal, truth, looks);
}

static void fill(uint32_t mark, uint32_t lamp)
{
    uint32_t cells;

    printf("mark %u is lamp %u: ", (unsigned)mark, (unsigned)lamp);
    if (!refused(plotask_substitute(PLOTASK_HEADER(&header), plot, PLOTASK_WORDS, mark, lamp, &cells)))
        printf("%u cell\n", (unsigned)cells);
}

/* A fill that the director may still take back. */
static void try_fill(uint32_t mark, uint32_t lamp)
{
    uint32_t cells;

    printf("say mark %u is lamp %u: ", (unsigned)mark, (unsigned)lamp);
    if (!refused(plotask_substitute_logged(PLOTASK_HEADER(&header), plot, PLOTASK_WORDS, fill_log, FILL_LOG_WORDS,
                                           &fill_log_used, mark, lamp, &cells)))
        printf("%u cell, %u words of the log in use\n", (unsigned)cells, (unsigned)fill_log_used);
}

static void take_back(void)
{
    uint32_t cells;

    printf("take the last fill back: ");
    if (!refused(plotask_undo(PLOTASK_HEADER(&header), plot, PLOTASK_WORDS, fill_log, FILL_LOG_WORDS, &fill_log_used,
                              &cells)))
        printf("%u cell, %u words of the log in use\n", (unsigned)cells, (unsigned)fill_log_used);
}

int main(void)
{
    const uint32_t lamp = 202;
    uint8_t *written = (uint8_t *)list;
    uint32_t bytes;

    if (refused(plotask_decode(card, sizeof card, PLOTASK_HEADER(&header), plot, PLOTASK_WORDS, &fill_log_used)))
        return 1;
    printf("card read: %u sheets, %u words\n", (unsigned)header.relations, (unsigned)header.used);

    if (refused(plotask_insert(PLOTASK_HEADER(&header), plot, PLOTASK_WORDS, HUNG, &lamp, 1)))
        return 1;
    printf("lamp 202 entered: %u words, %u lamps hang\n", (unsigned)header.used, (unsigned)header.counts[HUNG]);

    ask_to_hire(201, 100);

    /* Taking a fill back is no fill: the verdict that it had settled is unknown again. */
    try_fill(1, 201);
    ask_to_hire(201, 100);
    take_back();
    ask_to_hire(201, 100);
    take_back();

    fill(1, 202);
    ask_to_hire(201, 100);
    ask_to_hire(202, 100);

    /* A refused call changes nothing, so the host goes on. */
    fill(1, 203);

    /* A sheet's looks end at the lamp's own row: 4 are enough for 201, which hangs first, and one too few for 202. */
    ask_to_hire(201, 4);
    ask_to_hire(202, 4);

    /* The card takes the working list's memory. Until it has been sent, the host asks without the list. */
    if (refused(plotask_encode(PLOTASK_HEADER(&header), plot, PLOTASK_WORDS, written, sizeof list, &bytes)))
        return 1;
    printf("card written: %u bytes\n", (unsigned)bytes);
    ask_any_to_hire(100);
    return 0;
}
