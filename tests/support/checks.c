#include "checks.h"

#include <stdio.h>

static unsigned long passed;
static unsigned long failed;

bool check(bool holds)
{
    if (holds)
        passed++;
    else
        failed++;
    return holds;
}

int finish_checks(void)
{
    printf("%lu passed, %lu failed\n", passed, failed);
    return failed != 0;
}
