/* The program plotask, from its input bytes to its line. */
#include "reference.h"
#include "support/bytes.h"

#include <stdio.h>

struct fields {
    uint32_t card_length;
    const uint8_t *card;
    uint32_t query_length;
    uint32_t query[MOST_INPUT / 4];
    uint32_t candidate_length;
    uint32_t candidate[255];
    uint32_t budget;
};

static uint32_t take_fields(struct fields *fields, const uint8_t *input, size_t length)
{
    struct bytes bytes = {input, length, 0};
    if (length > MOST_INPUT)
        return 10;
    if (!take_number(&bytes, 2, &fields->card_length) || bytes.length - bytes.at < fields->card_length)
        return 11;
    fields->card = input + bytes.at;
    bytes.at += fields->card_length;
    if (!take_number(&bytes, 2, &fields->query_length))
        return 11;
    for (uint32_t i = 0; i < fields->query_length; i++)
        if (!take_number(&bytes, 4, &fields->query[i]))
            return 11;
    if (!take_number(&bytes, 1, &fields->candidate_length))
        return 11;
    for (uint32_t i = 0; i < fields->candidate_length; i++)
        if (!take_number(&bytes, 3, &fields->candidate[i]))
            return 11;
    if (!take_number(&bytes, 4, &fields->budget))
        return 11;
    return bytes.at < bytes.length ? 18 : 0;
}

/* The program's way to ask: with a list that is long enough for every plot and query. */
static uint32_t ask_listed(const uint32_t *header, size_t header_length, const uint32_t *words, size_t length,
                           const uint32_t *query, size_t query_length, const uint32_t *candidate,
                           size_t candidate_length, uint32_t budget, uint32_t *truth, uint32_t *cost)
{
    static uint32_t list[MOST_WORDS];
    return ref_ask(header, header_length, words, length, query, query_length, candidate, candidate_length, list,
                   MOST_WORDS, budget, truth, cost);
}

void ref_line(const uint8_t *input, size_t length, char line[LINE_BYTES])
{
    line_by(ref_decode, ask_listed, input, length, line);
}

void line_by(__typeof__(ref_decode) *decode, __typeof__(ref_ask_unlisted) *ask, const uint8_t *input, size_t length,
             char line[LINE_BYTES])
{
    static const char *const names[] = {"false", "unknown", "true"};
    static struct fields fields;
    static uint32_t words[MOST_WORDS];
    uint32_t header[HEADER_WORDS];
    size_t log_used;
    uint32_t truth = 0;
    uint32_t cost = 0;
    uint32_t refusal = take_fields(&fields, input, length);
    if (refusal == 0)
        refusal = decode(fields.card, fields.card_length, header, HEADER_WORDS, words, MOST_WORDS, &log_used);
    if (refusal == 0)
        refusal = ask(header, HEADER_WORDS, words, MOST_WORDS, fields.query, fields.query_length, fields.candidate,
                      fields.candidate_length, fields.budget, &truth, &cost);
    if (refusal != 0)
        snprintf(line, LINE_BYTES, "refused %u\n", (unsigned)refusal);
    else
        snprintf(line, LINE_BYTES, "%s %u\n", names[truth], (unsigned)cost);
}
