#include "line.h"

#include <stdarg.h>
#include <stdio.h>
#include <string.h>

struct line line_of(const char *text)
{
    return (struct line){.text = text};
}

static bool is_digit(char c)
{
    return c >= '0' && c <= '9';
}

static bool is_letter(char c)
{
    return (c >= 'a' && c <= 'z') || (c >= 'A' && c <= 'Z');
}

static bool in_word(char c)
{
    return is_letter(c) || is_digit(c) || c == '_';
}

size_t next_at(struct line *line)
{
    line->at += strspn(line->text + line->at, " \t");
    return line->at;
}

bool at_end(struct line *line)
{
    return next_is(line, '\0');
}

bool next_is(struct line *line, char sign)
{
    return line->text[next_at(line)] == sign;
}

struct word take_word(struct line *line)
{
    size_t at = next_at(line);
    struct word word = {line->text + at, 0, at};
    while (in_word(word.start[word.length]))
        word.length++;
    line->at += word.length;
    return word;
}

bool take_sign(struct line *line, char sign)
{
    if (!next_is(line, sign))
        return expected(line, line->at, "\"%c\"", sign);
    line->at++;
    return true;
}

bool take_end(struct line *line)
{
    return at_end(line) || expected(line, line->at, "the end of the line");
}

bool word_is(struct word word, const char *text)
{
    return strlen(text) == word.length && memcmp(text, word.start, word.length) == 0;
}

bool word_number(struct word word, size_t from, uint32_t most, uint64_t *number)
{
    uint64_t n = 0;

    for (size_t i = from; i < word.length; i++) {
        if (!is_digit(word.start[i]))
            return false;
        n = n * 10 + (uint64_t)(word.start[i] - '0');
        if (n > most)
            n = (uint64_t)most + 1;
    }
    *number = n;
    return word.length > from;
}

bool word_numbered(struct word word, char letter, uint32_t most, uint64_t *number)
{
    return word.length > 1 && word.start[0] == letter && word_number(word, 1, most, number);
}

bool take_name(struct line *line, const char *what, char name[NAME_ROOM])
{
    struct word word = take_word(line);
    uint64_t number;

    if (word.length == 0 || !is_letter(word.start[0]))
        return expected(line, word.at, "%s: a letter, then letters, digits and _", what);
    if (word_numbered(word, 'm', 0, &number) || word_numbered(word, 'v', 0, &number))
        return expected(line, word.at, "%s that is no mark or variable", what);
    if (word.length > NAME_BYTES)
        return expected(line, word.at, "%s of at most %d letters, digits and _", what, (int)NAME_BYTES);
    memcpy(name, word.start, word.length);
    name[word.length] = '\0';
    return true;
}

bool refuse(struct line *line, size_t at, uint32_t refusal, const char *format, ...)
{
    va_list arguments;

    line->fault = (struct fault){.refusal = refusal, .at = at};
    va_start(arguments, format);
    vsnprintf(line->fault.text, sizeof line->fault.text, format, arguments);
    va_end(arguments);
    return false;
}

/* Writes what stands at a place: the end, a word, or one sign. */
static void write_found(struct line *line, size_t at, char *text, size_t room)
{
    struct line rest = {.text = line->text, .at = at};

    if (at_end(&rest)) {
        snprintf(text, room, "the end of the line");
        return;
    }
    struct word word = take_word(&rest);
    if (word.length > SHOWN_BYTES)
        snprintf(text, room, "\"%.*s..\"", (int)SHOWN_BYTES, word.start);
    else if (word.length > 0)
        snprintf(text, room, "\"%.*s\"", (int)word.length, word.start);
    else if ((unsigned char)*word.start < 0x80)
        snprintf(text, room, "\"%c\"", *word.start);
    else
        snprintf(text, room, "the byte 0x%02X", (unsigned)(unsigned char)*word.start);
}

bool expected(struct line *line, size_t at, const char *format, ...)
{
    char what[FAULT_BYTES / 2];
    char found[64];
    va_list arguments;

    va_start(arguments, format);
    vsnprintf(what, sizeof what, format, arguments);
    va_end(arguments);
    write_found(line, at, found, sizeof found);
    return refuse(line, at, 0, "expected %s, found %s", what, found);
}
