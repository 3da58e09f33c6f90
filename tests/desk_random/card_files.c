#include "card_files.h"
#include "generators/generate.h"
#include "support/bytes.h"

#include <stdio.h>
#include <stdlib.h>
#include <string.h>

static const char *const saved[] = {"a.card", "b.card"};
static const char made[] = "c.card";
static const char *const bad[] = {"none/a.card", "."};

static struct any_card card;

static const char *write_card(void)
{
    FILE *file = fopen(made, "wb");

    if (!file || fwrite(card.bytes, 1, card.length, file) != card.length || fclose(file) != 0) {
        printf("%s cannot be written\n", made);
        exit(2);
    }
    return made;
}

enum { BLANK = 0 };

/* Rows of one sheet, whose cells are all the same, or all blank. */
static const char *write_rows(uint32_t columns, uint32_t rows, uint32_t cell)
{
    card.length = 0;
    put_number(card.bytes, &card.length, 1, 1);
    put_number(card.bytes, &card.length, columns, 1);
    put_number(card.bytes, &card.length, rows, 2);
    for (; rows > 0; rows--) {
        put_number(card.bytes, &card.length, cell == BLANK ? 0 : (1u << columns) - 1, 2);
        for (uint32_t column = 0; column < columns && cell != BLANK; column++)
            put_number(card.bytes, &card.length, cell, 3);
    }
    return write_card();
}

void forget_saved(void)
{
    for (size_t i = 0; i < 2; i++)
        remove(saved[i]);
}

const char *file_of_one_mark(struct random *random)
{
    return write_rows(MOST_COLUMNS, 585, CONSTANTS + 1 + below(random, 2));
}

const char *file_to_load(struct random *random)
{
    struct palette palette = make_palette(random);

    switch (below(random, 12)) {
    case 0:
        return bad[below(random, 2)];
    case 1:
        return write_rows(1, 2049 + below(random, 400), 5);
    case 2:
        return write_rows(1, 199 + below(random, 4), BLANK);
    case 3:
    case 4:
    case 5:
        return saved[below(random, 2)];
    default:
        do
            make_card(random, &palette, &card);
        while (card.words > 60);
        for (size_t damages = below(random, 3); damages > 0; damages--)
            damage_card(random, &card);
        return write_card();
    }
}

const char *file_to_save(struct random *random)
{
    return one_in(random, 12) ? bad[below(random, 2)] : saved[below(random, 2)];
}

static bool is_file(const char *path, size_t length, const char *file)
{
    return strlen(file) == length && memcmp(path, file, length) == 0;
}

static bool is_blank(char byte)
{
    return byte == ' ' || byte == '\t';
}

bool names_card_file(const char *bytes, size_t length)
{
    size_t at = 0, end = length;

    while (at < length && is_blank(bytes[at]))
        at++;
    at += strlen("load");
    while (at < length && is_blank(bytes[at]))
        at++;
    if (end > at && bytes[end - 1] == '\r')
        end--;
    for (size_t i = at; i < end; i++)
        if (bytes[i] == '#')
            end = i;
    while (end > at && is_blank(bytes[end - 1]))
        end--;
    for (size_t i = 0; i < 2; i++)
        if (is_file(bytes + at, end - at, saved[i]) || is_file(bytes + at, end - at, bad[i]))
            return true;
    return end <= at || is_file(bytes + at, end - at, made);
}
