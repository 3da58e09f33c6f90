#include "both_ways.h"
#include "plotask.h"
#include "reference/reference.h"
#include "support/program.h"

#include <stdio.h>
#include <string.h>

/* The line that the program prints, without its line feed; false if it prints none. */
static bool run(const char *program, const uint8_t *input, size_t length, char *line, size_t room)
{
    if (!run_program(program, NULL, input, length, NULL, NULL, line, room))
        return false;
    size_t end = strlen(line);
    if (end == 0 || line[end - 1] != '\n')
        return false;
    line[end - 1] = '\0';
    return true;
}

const char *ask_both_ways(const char *program, const struct input *input, struct answer *answer)
{
    static uint8_t bytes[MOST_INPUT];
    static char fault[128];
    char line[LINE_BYTES], unlisted[LINE_BYTES];
    size_t length = write_input(input, bytes);

    if (!run(program, bytes, length, line, sizeof line))
        return "the program did not run, or printed no line";
    line_by(plotask_decode, plotask_ask_unlisted, bytes, length, unlisted);
    unlisted[strcspn(unlisted, "\n")] = '\0';
    if (strcmp(line, unlisted) != 0) {
        snprintf(fault, sizeof fault, "the program prints '%s', and '%s' is the line without a working list", line,
                 unlisted);
        return fault;
    }
    return read_answer(line, answer) ? NULL : "the program's line is no verdict and no refusal";
}
