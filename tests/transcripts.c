/*
 * Types what transcripts of the desk say was typed, and compares what the desk prints, line by line: transcripts desk
 * file... A transcript has a typed line after "> ", and the desk's answer in the lines after it. A page in Markdown (.md)
 * has transcripts in boxes that start with ```desk; all boxes of a page are typed one after the other.
 */
#include "support/checks.h"
#include "support/program.h"

#include <stdio.h>
#include <string.h>

/* The desk gets a whole script before it is read from, so the script has to fit a pipe. */
enum { SCRIPT_BYTES = 65536, OUTPUT_BYTES = 262144, LINE_ROOM = 8192 };

struct transcript {
    const char *name;
    FILE *file;
    bool page;
    bool in_box;
    unsigned at; /* the number of the line that was read last */
};

/* The next line of the transcript, with its line feed; false at its end. */
static bool next_line(struct transcript *transcript, char line[LINE_ROOM])
{
    while (fgets(line, LINE_ROOM, transcript->file)) {
        transcript->at++;
        bool fence = transcript->page && strncmp(line, "```", 3) == 0;
        if (fence)
            transcript->in_box = strcmp(line, "```desk\n") == 0;
        else if (transcript->in_box)
            return true;
    }
    return false;
}

static void start(struct transcript *transcript)
{
    rewind(transcript->file);
    transcript->at = 0;
    transcript->in_box = !transcript->page;
}

/* Gathers what is typed; returns its length, 0 if there is nothing or too much. */
static size_t gather(struct transcript *transcript, char script[SCRIPT_BYTES])
{
    char line[LINE_ROOM];
    size_t length = 0;

    start(transcript);
    while (next_line(transcript, line))
        if (strncmp(line, "> ", 2) == 0) {
            size_t more = strlen(line + 2);
            if (more > SCRIPT_BYTES - length)
                return 0;
            memcpy(script + length, line + 2, more);
            length += more;
        }
    return length;
}

/* Compares the transcript with what was printed. */
static void compare(struct transcript *transcript, const char *printed)
{
    char line[LINE_ROOM];

    start(transcript);
    while (next_line(transcript, line)) {
        size_t length = strcspn(printed, "\n") + 1;
        if (!check(strncmp(printed, line, length) == 0 && strlen(line) == length)) {
            printf("%s, line %u: expected %sthe desk printed %.*s\n", transcript->name, transcript->at, line,
                   (int)strcspn(printed, "\n"), printed);
            return;
        }
        printed += length;
    }
    if (!check(*printed == '\0'))
        printf("%s: the desk prints more: %s", transcript->name, printed);
}

static void run(const char *desk, const char *name)
{
    static char script[SCRIPT_BYTES], printed[OUTPUT_BYTES];
    size_t length = strlen(name);
    struct transcript transcript = {.name = name, .file = fopen(name, "r")};

    if (!transcript.file) {
        perror(name);
        check(false);
        return;
    }
    transcript.page = length > 3 && strcmp(name + length - 3, ".md") == 0;
    length = gather(&transcript, script);
    if (check(length > 0) &&
        check(run_program(desk, "-", (const uint8_t *)script, length, NULL, NULL, printed, sizeof printed)))
        compare(&transcript, printed);
    else
        printf("%s: nothing is typed, or the desk failed\n", name);
    fclose(transcript.file);
}

int main(int count, char **arguments)
{
    if (count < 3) {
        fprintf(stderr, "usage: transcripts desk file...\n");
        return 2;
    }
    for (int i = 2; i < count; i++)
        run(arguments[1], arguments[i]);
    return finish_checks();
}
