#include "answer.h"
#include "scan.h"

#include <stddef.h>
#include <stdio.h>
#include <string.h>

static const char *const words[] = {"refused", "true", "false", "unknown"};

enum { WORDS = 4, FIRST_VERDICT = 1 };

/* Reads the answer's word, and returns whether it is one. */
static bool scan_answer_word(const char **at, struct answer *answer)
{
    for (size_t i = 0; i < WORDS; i++) {
        if (scan_word(at, words[i])) {
            strcpy(answer->word, words[i]);
            return true;
        }
    }
    return false;
}

bool read_answer(const char *line, struct answer *answer)
{
    return scan_answer_word(&line, answer) && scan_number(&line, &answer->number) && *line == '\0';
}

void write_answer(const struct answer *answer, char text[ANSWER_BYTES])
{
    if (is_refused(answer))
        snprintf(text, ANSWER_BYTES, "refused %u", (unsigned)answer->number);
    else
        snprintf(text, ANSWER_BYTES, "%s, %u look%s", answer->word, (unsigned)answer->number,
                 answer->number == 1 ? "" : "s");
}

struct answer refusal(uint32_t number)
{
    struct answer answer = {"refused", number};

    return answer;
}

bool is_refused(const struct answer *answer)
{
    return strcmp(answer->word, "refused") == 0;
}

bool is_settled(const struct answer *answer)
{
    return strcmp(answer->word, "true") == 0 || strcmp(answer->word, "false") == 0;
}

bool same_verdict(const struct answer *left, const struct answer *right)
{
    return strcmp(left->word, right->word) == 0 && (!is_refused(left) || left->number == right->number);
}

bool is_answer_text(const char *text)
{
    const char *at = text;
    struct answer answer;
    char written[ANSWER_BYTES];

    for (size_t i = FIRST_VERDICT; i < WORDS; i++)
        if (strcmp(text, words[i]) == 0)
            return true;
    if (!scan_answer_word(&at, &answer))
        return false;
    scan_sign(&at, ',');
    if (!scan_number(&at, &answer.number))
        return false;
    write_answer(&answer, written);
    return strcmp(text, written) == 0;
}
