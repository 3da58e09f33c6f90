/* The desk at a terminal, or over a script: desk [[-i] SCRIPT]. */
#include "desk.h"

#include <string.h>

/* Some editors start a script with a byte order mark. */
static const char mark[] = "\xEF\xBB\xBF";

enum { MARK_BYTES = sizeof mark - 1, READ_ROOM = MARK_BYTES + LINE_ROOM };

static struct desk desk;

/*
 * Reads a line without its line feed. Of a line that is longer than the desk takes, the bytes that have room are kept
 * and all are counted. False at the end of the input.
 */
static bool read_line(FILE *in, char bytes[READ_ROOM], size_t *length)
{
    int c;

    *length = 0;
    while ((c = getc(in)) != EOF && c != '\n') {
        if (*length < READ_ROOM)
            bytes[*length] = (char)c;
        ++*length;
    }
    return c != EOF || *length > 0;
}

/* Shows a line of a script as if it were typed: a control byte as '?', and of a line that is too long the start. */
static void show_line(const char *bytes, size_t length)
{
    enum { START = 72 };
    bool cut = length > LINE_ROOM;

    if (!cut && length > 0 && bytes[length - 1] == '\r')
        length--;
    cut = length >= LINE_ROOM;
    fputs("> ", stdout);
    for (size_t i = 0; i < (cut ? START : length); i++)
        putchar(is_control(bytes[i]) ? '?' : bytes[i]);
    puts(cut ? ".." : "");
}

/* Runs the lines of a script, or those that are typed, up to the end of the input; false if a line ended the desk. */
static bool run(FILE *in, bool script)
{
    char bytes[READ_ROOM];
    size_t length;

    for (bool first = true;; first = false) {
        if (!script) {
            fputs("> ", stdout);
            fflush(stdout);
        }
        if (!read_line(in, bytes, &length))
            return true;
        bool marked = first && script && length >= MARK_BYTES && memcmp(bytes, mark, MARK_BYTES) == 0;
        size_t skipped = marked ? MARK_BYTES : 0;
        if (script)
            show_line(bytes + skipped, length - skipped);
        if (desk_line(&desk, bytes + skipped, length - skipped) == LINE_QUIT)
            return false;
    }
}

/* Runs a script; *ended if a line of it ended the desk. */
static bool run_script(const char *name, bool *ended)
{
    FILE *in = strcmp(name, "-") == 0 ? stdin : fopen(name, "r");

    if (!in)
        return false;
    *ended = !run(in, true);
    bool read = !ferror(in);
    if (in != stdin)
        fclose(in);
    return read;
}

int main(int count, char **arguments)
{
    bool terminal = count > 1 && strcmp(arguments[1], "-i") == 0, ended = false;
    const char *script = count > 1 + terminal ? arguments[1 + terminal] : NULL;

    if (count > 2 + terminal || (terminal && !script) || (script && script[0] == '-' && (terminal || script[1]))) {
        fputs("usage: desk [[-i] SCRIPT]; a SCRIPT - is standard input, and -i goes on at the terminal after a file\n",
              stderr);
        return 2;
    }
    desk_start(&desk, stdout);
    if (script && !run_script(script, &ended)) {
        fprintf(stderr, "desk: cannot read %s\n", script);
        return 2;
    }
    if (!ended && (!script || terminal)) {
        puts("help, or ?, lists the commands; quit ends");
        if (run(stdin, false))
            putchar('\n');
    }
    return fflush(stdout) != 0 || ferror(stdout);
}
