#include "typing.h"

#include <stdlib.h>
#include <string.h>

struct desk desk;

static struct desk noted;

/* Everything that the desk has answered since it was started, and where the last answer begins. */
static FILE *out;
static char *text;
static size_t text_length;
static size_t last_at;

void start_desk(void)
{
    if (out)
        fclose(out);
    free(text);
    text = NULL;
    text_length = last_at = 0;
    out = open_memstream(&text, &text_length);
    if (!out || fflush(out) != 0) {
        fputs("there is no memory for the desk's answers\n", stderr);
        exit(2);
    }
    desk_start(&desk, out);
}

enum line_end type_bytes(const char *bytes, size_t length)
{
    last_at = text_length;
    enum line_end end = desk_line(&desk, bytes, length);
    fflush(out);
    return end;
}

const char *last_answer(void)
{
    return text + last_at;
}

const struct desk *note_desk(void)
{
    memcpy(&noted, &desk, sizeof desk);
    return &noted;
}

bool is_as_noted(void)
{
    return memcmp(&noted, &desk, sizeof desk) == 0;
}

void print_bytes(const char *what, const char *bytes, size_t length)
{
    printf("%s ", what);
    for (size_t i = 0; i < length; i++)
        if (is_control(bytes[i]) && bytes[i] != '\n')
            printf("\\x%02X", (unsigned)(unsigned char)bytes[i]);
        else
            putchar(bytes[i]);
    putchar('\n');
}
