#include "lines.h"

#include <string.h>

/* Puts `count` bytes at a place instead of `gone` ones, as far as there is room. */
static void replace(struct any_line *line, size_t at, size_t gone, const char *bytes, size_t count)
{
    if (line->length - gone + count > sizeof line->bytes)
        return;
    memmove(line->bytes + at + count, line->bytes + at + gone, line->length - at - gone);
    memcpy(line->bytes + at, bytes, count);
    line->length += count - gone;
}

/* The place of one of these bytes, if a few tries find one; else any place. The line is not empty. */
static size_t place_of(struct random *random, const struct any_line *line, const char *bytes)
{
    size_t at = below(random, line->length);

    for (size_t tries = 0; tries < 200 && (line->bytes[at] == '\0' || !strchr(bytes, line->bytes[at])); tries++)
        at = below(random, line->length);
    return at;
}

/* A digit becomes a number at a limit. */
static void damage_number(struct random *random, struct any_line *line)
{
    static const char *const numbers[] = {"0",
                                          "16",
                                          "200",
                                          "201",
                                          "999999",
                                          "1000000",
                                          "00000000000000000000000001",
                                          "4294967295",
                                          "4294967296",
                                          "999999999999999999999999999999"};
    const char *number = numbers[below(random, sizeof numbers / sizeof *numbers)];

    replace(line, place_of(random, line, "0123456789"), 1, number, strlen(number));
}

static void make_too_long(struct random *random, struct any_line *line)
{
    static char filling[LINE_ROOM + 3];
    size_t wanted = LINE_ROOM - 3 + below(random, 6);

    memset(filling, one_in(random, 2) ? ' ' : 'x', sizeof filling);
    if (line->length < wanted)
        replace(line, below(random, line->length), 0, filling, wanted - line->length);
}

/* A part of the line twice. */
static void double_part(struct random *random, struct any_line *line)
{
    static char part[LINE_BYTES_ROOM];
    size_t at = below(random, line->length), count = 1 + below(random, line->length - at);

    memcpy(part, line->bytes + at, count);
    replace(line, at, 0, part, count);
}

/* A byte changed, added or taken away, or all before or after it taken away. */
static void damage_byte(struct random *random, struct any_line *line)
{
    char byte = (char)below(random, 256);
    size_t at = below(random, line->length);

    switch (below(random, 5)) {
    case 0:
        replace(line, at, 1, &byte, 1);
        break;
    case 1:
        replace(line, at, 0, &byte, 1);
        break;
    case 2:
        replace(line, at, 1, "", 0);
        break;
    case 3:
        replace(line, 0, at, "", 0);
        break;
    default:
        line->length = at;
    }
}

/* A bracket or a blank less, or a sign more. */
static void damage_sign(struct random *random, struct any_line *line)
{
    if (one_in(random, 3))
        replace(line, place_of(random, line, "(),:-"), 0, &"(),:- #"[below(random, 7)], 1);
    else
        replace(line, place_of(random, line, one_in(random, 3) ? " " : "()"), 1, "", 0);
}

void damage_line(struct random *random, struct any_line *line)
{
    static void (*const ways[])(struct random *, struct any_line *) = {
        damage_byte, damage_byte, damage_byte, damage_sign, damage_sign, damage_number, double_part, make_too_long};

    if (line->length == 0)
        line->bytes[line->length++] = (char)below(random, 256);
    else
        ways[below(random, sizeof ways / sizeof *ways)](random, line);
}
