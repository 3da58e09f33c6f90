#include "cases.h"
#include "support/checks.h"

#include <inttypes.h>
#include <stdio.h>

static uint64_t met_cases[PLAIN_CASES];

static const char *const case_texts[PLAIN_CASES] = {
#define CASE(name, text) [name] = text,
    EVERY_PLAIN_CASE(CASE)
#undef CASE
};

void meet(enum plain_case met)
{
    met_cases[met]++;
}

void check_cases(void)
{
    for (size_t i = 0; i < PLAIN_CASES; i++) {
        printf("%8" PRIu64 "  %s\n", met_cases[i], case_texts[i]);
        if (!check(met_cases[i] > 0))
            printf("          was never met\n");
    }
}
