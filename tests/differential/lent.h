/*
 * A slice that is lent to both sides. The library's copy is between guard bytes; the reference's copy has an allocation
 * of its own size, so that a sanitizer sees every access outside it.
 */
#ifndef LENT_H
#define LENT_H

#include <stdbool.h>
#include <stddef.h>
#include <stdint.h>

/* Bytes before and behind a slice. */
enum { GUARD = 64 };

struct lent {
    const char *name;
    size_t unit; /* bytes of one element: 1, 4, or those of a size_t */
    size_t count;
    void *before;
    void *library;
    void *reference;
    uint8_t behind[GUARD]; /* the bytes after the library's copy, as they were lent */
};

struct lent lend_words(const char *name, const uint32_t *words, size_t count);
struct lent lend_bytes(const char *name, const uint8_t *bytes, size_t count);
/*
 * The first words of a longer array. The array's next words follow the library's copy, so that a call that reads too
 * far finds words that look valid.
 */
struct lent lend_part(const char *name, const uint32_t *words, size_t count, size_t whole);
/* A single number, which a call may read and write. */
struct lent lend_size(const char *name, size_t number);
/* Whether the guards are as they were. */
bool guards_stand(const struct lent *lent);
/* Whether both sides left the same content. */
bool contents_agree(const struct lent *lent);
/* Whether the library left what was there before. */
bool is_untouched(const struct lent *lent);
void print_lent(const struct lent *lent);
void take_back(struct lent *lent);

#endif
