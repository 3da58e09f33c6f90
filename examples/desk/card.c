#include "counted.h"
#include "refusal.h"
#include "sheets.h"

#include <string.h>

/* The longest card that a plot has room for, and one byte more. */
static uint8_t card[PLOTASK_CARD_BYTES + 1];

/* Takes the rest of the line as a file's name, without the blanks around it. */
static bool take_path(struct line *line, char path[LINE_ROOM])
{
    if (at_end(line))
        return expected(line, line->at, "the name of a file");
    snprintf(path, LINE_ROOM, "%s", line->text + line->at);
    size_t length = strlen(path);
    while (strchr(" \t", path[length - 1]))
        length--;
    path[length] = '\0';
    return true;
}

/* Reads a file into the card; false if it cannot be read. */
static bool read_file(const char *path, size_t *bytes)
{
    FILE *file = fopen(path, "rb");

    if (!file)
        return false;
    *bytes = fread(card, 1, sizeof card, file);
    bool read = !ferror(file);
    fclose(file);
    return read;
}

/* Reads the first bytes of the card into a scratch plot, and returns what plotask answers. */
static uint32_t try_card(size_t bytes)
{
    static uint32_t scratch[PLOTASK_WORDS];
    struct plotask_header header;
    size_t log_used;

    return plotask_decode(card, bytes, PLOTASK_HEADER(&header), scratch, PLOTASK_WORDS, &log_used);
}

/*
 * Writes the card to a new file, which has a ~ after its name, and then renames it. If this fails, the old file is still
 * there. A file that had the ~ before is left alone.
 */
static bool write_file(const char *path, size_t bytes)
{
    char part[LINE_ROOM + 1];
    snprintf(part, sizeof part, "%s~", path);
    FILE *file = fopen(part, "wbx");

    if (!file)
        return false;
    bool written = fwrite(card, 1, bytes, file) == bytes;
    written = fclose(file) == 0 && written;
    written = written && rename(part, path) == 0;
    if (!written)
        remove(part);
    return written;
}

/* Whether there is a file that is no card: it would be lost. */
static bool holds_something_else(const char *path)
{
    size_t bytes;

    return read_file(path, &bytes) && try_card(bytes) != PLOTASK_DONE;
}

/*
 * The byte at which the card is refused, counted from 1; one past its end if it is too short. A card that ends before
 * that byte is refused as cut short, and one that ends there or later is not.
 */
static size_t byte_at_fault(size_t bytes, uint32_t refusal)
{
    size_t low = 0, high = bytes + 1;

    while (low < high) {
        size_t middle = low + (high - low) / 2;
        if (middle <= bytes && try_card(middle) == PLOTASK_CUT_SHORT)
            low = middle + 1;
        else
            high = middle;
    }
    return refusal == PLOTASK_BYTES_LEFT_OVER ? low + 1 : low;
}

/* Whether two plots have sheets with the same column counts. */
static bool same_sheets(const struct plotask_header *a, const struct plotask_header *b)
{
    return a->relations == b->relations && memcmp(a->arities, b->arities, sizeof a->arities) == 0;
}

/* What was read: the card's sheets by their names, if these still fit. */
static void say_loaded(struct desk *desk, const char *path, size_t bytes, bool same)
{
    const struct plot *plot = &desk->plot;
    unsigned rows = 0;

    for (uint32_t i = 0; i < plot->header.relations; i++)
        rows += count_rows(plot, i);
    fprintf(desk->out, "a card of %zu bytes read from %s: %u %s%s, %u %s%s\n", bytes, path,
            COUNTED(plot->header.relations, "sheet"), COUNTED(rows, "row"));
    if (!same)
        fputs("a card has no names: the sheets are s0, s1 and so on, their columns c0, c1\n", desk->out);
    if (desk->asked_count > 0)
        fputs("the questions asked of the old plot are not asked again\n", desk->out);
}

/* load FILE */
bool load(struct desk *desk, struct line *line)
{
    struct plot *plot = &desk->plot;
    struct plotask_header before = plot->header;
    char path[LINE_ROOM];
    size_t bytes, at = next_at(line);

    if (!take_path(line, path))
        return false;
    if (!read_file(path, &bytes))
        return refuse(line, at, 0, "the file cannot be read");
    if (bytes > PLOTASK_CARD_BYTES)
        return refuse(line, at, 0, "the file has more than %d bytes, the most that a card has",
                      (int)PLOTASK_CARD_BYTES);
    uint32_t refusal =
        plotask_decode(card, bytes, PLOTASK_HEADER(&plot->header), plot->words, PLOTASK_WORDS, &plot->log_used);
    if (refusal == PLOTASK_NULLS_EXHAUSTED || refusal == PLOTASK_NO_ROOM)
        return refuse_number(line, at, refusal);
    if (refusal != PLOTASK_DONE)
        return refuse(line, at, refusal, "byte %zu of the card: %s", byte_at_fault(bytes, refusal), meaning(refusal));
    bool same = same_sheets(&before, &plot->header);
    if (!same)
        name_by_number(plot);
    say_loaded(desk, path, bytes, same);
    plot->fill_count = 0;
    desk->asked_count = 0;
    return true;
}

/* save FILE */
bool save(struct desk *desk, struct line *line)
{
    char path[LINE_ROOM];
    uint32_t bytes;
    size_t at = next_at(line);

    if (!take_path(line, path))
        return false;
    if (holds_something_else(path))
        return refuse(line, at, 0, "the file is there and is no card, so it is not replaced");
    uint32_t refusal = plotask_encode(PLOTASK_HEADER(&desk->plot.header), desk->plot.words, PLOTASK_WORDS, card,
                                      PLOTASK_CARD_BYTES, &bytes);
    if (refusal != PLOTASK_DONE)
        return refuse_number(line, line->start, refusal);
    if (!write_file(path, bytes))
        return refuse(line, at, 0, "the file, or one with a ~ after its name, cannot be written");
    fprintf(desk->out, "a card of %u bytes written to %s\n", (unsigned)bytes, path);
    return true;
}
