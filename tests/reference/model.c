/* The model of "Run A and run B". */
#include "plot.h"

#include <string.h>

void model_open(struct model *model, const uint32_t header[HEADER_WORDS], const uint32_t *words,
                const uint32_t *candidate, size_t candidate_length)
{
    memcpy(model->header, header, sizeof model->header);
    memcpy(model->words, words, header[HEADER_USED] * sizeof *words);
    memcpy(model->candidate, candidate, candidate_length * sizeof *candidate);
    model->candidate_length = candidate_length;
}

/* Whether two words and one for each cell are left in the log. */
static bool log_has_room(const struct log_size *log, size_t cells)
{
    return log->used <= log->length && 2 + cells <= log->length - log->used;
}

uint32_t model_substitute(struct model *model, const struct log_size *log, uint32_t null, uint32_t cell,
                          uint32_t *count)
{
    size_t used = model->header[HEADER_USED];
    uint32_t words[MOST_WORDS];
    memcpy(words, model->words, used * sizeof *words);
    uint32_t refusal = ref_substitute(model->header, HEADER_WORDS, words, used, null, cell, count);
    if (refusal != 0)
        return refusal;
    if (log != NULL && !log_has_room(log, *count))
        return 47;
    memcpy(model->words, words, used * sizeof *words);
    for (size_t i = 0; i < model->candidate_length; i++)
        if (null_of(model->candidate[i]) == null)
            model->candidate[i] = cell;
    return 0;
}

bool model_holds_a_null(const struct model *model)
{
    static struct plot plot;
    static uint32_t values[MOST_WORDS];
    for (size_t i = 0; i < model->candidate_length; i++)
        if (!is_constant(model->candidate[i]))
            return true;
    plot_take_apart(&plot, model->header, HEADER_WORDS, model->words, model->header[HEADER_USED]);
    size_t value_count = plot_values(&plot, values);
    for (size_t i = 0; i < value_count; i++)
        if (!is_constant(values[i]))
            return true;
    return false;
}
