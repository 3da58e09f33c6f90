#include "scan.h"

#include <ctype.h>
#include <stddef.h>
#include <stdlib.h>
#include <string.h>

static const char *after_blanks(const char *at)
{
    return at + strspn(at, " \t");
}

bool scan_end(const char **at)
{
    *at = after_blanks(*at);
    return **at == '\0';
}

bool scan_sign(const char **at, char sign)
{
    const char *next = after_blanks(*at);

    if (*next != sign)
        return false;
    *at = next + 1;
    return true;
}

bool scan_name(const char **at, char name[NAME_BYTES])
{
    const char *next = after_blanks(*at);
    size_t length = 0;

    if (!isalpha((unsigned char)*next))
        return false;
    while (isalnum((unsigned char)next[length]) || next[length] == '_')
        length++;
    if (length >= NAME_BYTES)
        return false;
    memcpy(name, next, length);
    name[length] = '\0';
    *at = next + length;
    return true;
}

bool scan_word(const char **at, const char *word)
{
    const char *next = *at;
    char name[NAME_BYTES];

    if (!scan_name(&next, name) || strcmp(name, word) != 0)
        return false;
    *at = next;
    return true;
}

bool scan_number(const char **at, uint32_t *number)
{
    const char *next = after_blanks(*at);
    char *end;

    if (!isdigit((unsigned char)*next))
        return false;
    unsigned long long n = strtoull(next, &end, 10);
    if (n > UINT32_MAX)
        return false;
    *number = (uint32_t)n;
    *at = end;
    return true;
}

bool number_in_name(const char *name, char letter, uint32_t *number)
{
    const char *digits = name + 1;

    return name[0] == letter && scan_number(&digits, number) && *digits == '\0';
}
