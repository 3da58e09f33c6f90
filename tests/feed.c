/*
 * The program plotask against the reference: feed program [seed [runs]]. The program gets random input bytes through a
 * pipe, in pieces of many sizes; its line has to be the reference's, byte by byte. It asks with a working list, and the
 * line has to be the same without one, by the reference and by the library's calls.
 */
#include "generators/generate.h"
#include "plotask.h"
#include "support/arguments.h"
#include "support/checks.h"
#include "support/program.h"

#include <inttypes.h>
#include <stdio.h>
#include <string.h>

/* How the line may begin: with a verdict, or a refusal that input bytes can cause. */
static const char *const beginnings[] = {"true",       "false",      "unknown",    "refused 10", "refused 11",
                                         "refused 12", "refused 13", "refused 14", "refused 15", "refused 16",
                                         "refused 17", "refused 18", "refused 21", "refused 22", "refused 23",
                                         "refused 24", "refused 25", "refused 26", "refused 42", "refused 46"};

enum { BEGINNINGS = sizeof beginnings / sizeof *beginnings };

/* What the runs have hit. */
struct hits {
    uint64_t beginnings[BEGINNINGS];
    uint64_t at_limit;   /* inputs of 16,384 bytes */
    uint64_t over_limit; /* inputs of 16,385 bytes */
};

struct pieces {
    struct random *random;
    size_t largest;
};

static size_t next_piece(void *context)
{
    struct pieces *pieces = context;
    return 1 + below(pieces->random, pieces->largest);
}

static void print_difference(const struct any_input *input, const char *expected, const char *got)
{
    printf("expected %sthe program printed %s\ninput, %zu bytes:", expected, got, input->length);
    for (size_t i = 0; i < input->length; i++)
        printf(" %02x", input->bytes[i]);
    printf("\n");
}

static void count_hit(struct hits *hits, const struct any_input *input, const char *line)
{
    for (size_t i = 0; i < BEGINNINGS; i++) {
        size_t length = strlen(beginnings[i]);
        if (strncmp(line, beginnings[i], length) == 0 && (line[length] == ' ' || line[length] == '\n'))
            hits->beginnings[i]++;
    }
    hits->at_limit += input->length == MOST_INPUT;
    hits->over_limit += input->length == MOST_INPUT + 1;
}

/* The line without the program: by the reference as the program asks, and with no list by the reference and library. */
enum { LINES = 3 };

static void expected_lines(const struct any_input *input, char lines[LINES][LINE_BYTES])
{
    ref_line(input->bytes, input->length, lines[0]);
    line_by(ref_decode, ref_ask_unlisted, input->bytes, input->length, lines[1]);
    line_by(plotask_decode, plotask_ask_unlisted, input->bytes, input->length, lines[2]);
}

/* One run of the program; false if its line is not as expected. */
static bool run(const char *program, uint64_t seed, uint64_t number, struct hits *hits)
{
    static struct any_input input;
    struct random random = random_of_round(seed, number);
    struct pieces pieces = {&random, 0};
    char expected[LINES][LINE_BYTES];
    char got[2 * LINE_BYTES];
    make_input(&random, &input);
    expected_lines(&input, expected);
    pieces.largest = one_in(&random, 4) ? INPUT_ROOM : one_in(&random, 4) ? 3 : 1 + below(&random, 5000);
    bool ended = run_program(program, NULL, input.bytes, input.length, next_piece, &pieces, got, sizeof got);
    for (size_t i = 0; i < LINES; i++)
        if (!ended || strcmp(expected[i], got) != 0) {
            printf("seed %" PRIu64 ", run %" PRIu64 ": ", seed, number);
            print_difference(&input, expected[i], got);
            return false;
        }
    count_hit(hits, &input, got);
    return true;
}

static void check_hit(const char *name, uint64_t count)
{
    printf("%8" PRIu64 "  %s\n", count, name);
    check(count > 0);
}

int main(int count, char **arguments)
{
    static struct hits hits;
    uint64_t seed = number_argument(count, arguments, 2, 1);
    uint64_t runs = number_argument(count, arguments, 3, 1000);
    if (count < 2) {
        fputs("feed program [seed [runs]]\n", stderr);
        return 2;
    }
    for (uint64_t number = 0; number < runs; number++)
        if (!run(arguments[1], seed, number, &hits)) {
            check(false);
            return finish_checks();
        }
    for (size_t i = 0; i < BEGINNINGS; i++)
        check_hit(beginnings[i], hits.beginnings[i]);
    check_hit("inputs of 16,384 bytes", hits.at_limit);
    check_hit("inputs of 16,385 bytes", hits.over_limit);
    printf("seed %" PRIu64 ", %" PRIu64 " runs of the program compared\n", seed, runs);
    return finish_checks();
}
