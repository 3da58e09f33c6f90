#include "lent.h"

#include <stdio.h>
#include <stdlib.h>
#include <string.h>

static uint8_t guard_byte(size_t index)
{
    return (uint8_t)(0xa5 ^ index * 29);
}

static void *allocate(size_t size)
{
    void *memory = malloc(size > 0 ? size : 1);
    if (memory == NULL) {
        fputs("out of memory\n", stderr);
        exit(1);
    }
    return memory;
}

/*
 * Lends the first `count` elements of an array of `whole`. The guard after the library's copy holds the bytes that
 * follow in the array, and guard bytes once the array ends.
 */
static struct lent lend(const char *name, const void *content, size_t count, size_t whole, size_t unit)
{
    size_t size = count * unit;
    size_t following = (whole - count) * unit;
    struct lent lent = {name, unit, count, allocate(size), NULL, allocate(size), {0}};
    uint8_t *guarded = allocate(size + 2 * GUARD);
    for (size_t i = 0; i < GUARD; i++) {
        guarded[i] = guard_byte(i);
        lent.behind[i] = i < following ? ((const uint8_t *)content)[size + i] : guard_byte(i);
    }
    memcpy(guarded + GUARD + size, lent.behind, GUARD);
    lent.library = guarded + GUARD;
    memcpy(lent.before, content, size);
    memcpy(lent.library, content, size);
    memcpy(lent.reference, content, size);
    return lent;
}

struct lent lend_words(const char *name, const uint32_t *words, size_t count)
{
    return lend(name, words, count, count, sizeof *words);
}

struct lent lend_part(const char *name, const uint32_t *words, size_t count, size_t whole)
{
    return lend(name, words, count, whole, sizeof *words);
}

struct lent lend_bytes(const char *name, const uint8_t *bytes, size_t count)
{
    return lend(name, bytes, count, count, sizeof *bytes);
}

struct lent lend_size(const char *name, size_t number)
{
    return lend(name, &number, 1, 1, sizeof number);
}

bool guards_stand(const struct lent *lent)
{
    const uint8_t *start = (const uint8_t *)lent->library - GUARD;
    const uint8_t *end = (const uint8_t *)lent->library + lent->count * lent->unit;
    for (size_t i = 0; i < GUARD; i++)
        if (start[i] != guard_byte(i) || end[i] != lent->behind[i])
            return false;
    return true;
}

bool contents_agree(const struct lent *lent)
{
    return memcmp(lent->library, lent->reference, lent->count * lent->unit) == 0;
}

bool is_untouched(const struct lent *lent)
{
    return memcmp(lent->library, lent->before, lent->count * lent->unit) == 0;
}

static void print_content(const char *title, const struct lent *lent, const void *content)
{
    printf("    %s:", title);
    for (size_t i = 0; i < lent->count; i++) {
        if (lent->unit == 1)
            printf(" %02x", ((const uint8_t *)content)[i]);
        else if (lent->unit == 4)
            printf(" %u", (unsigned)((const uint32_t *)content)[i]);
        else
            printf(" %zu", ((const size_t *)content)[i]);
    }
    printf("\n");
}

void print_lent(const struct lent *lent)
{
    printf("  %s, %zu of %zu bytes%s\n", lent->name, lent->count, lent->unit,
           guards_stand(lent) ? "" : ", written outside");
    print_content("before", lent, lent->before);
    if (!is_untouched(lent))
        print_content("library", lent, lent->library);
    if (!contents_agree(lent))
        print_content("reference", lent, lent->reference);
}

void take_back(struct lent *lent)
{
    free(lent->before);
    free((uint8_t *)lent->library - GUARD);
    free(lent->reference);
}
