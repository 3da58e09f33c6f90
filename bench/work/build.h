/* The calls of the library under other names: those of another build of it, whose symbols have a prefix. */
#ifndef BUILD_H
#define BUILD_H

#include "plotask.h"

/* The calls of one build, and the words of the headers that they take. */
struct build {
    size_t header_words;
    __typeof__(plotask_ask) *ask;
    __typeof__(plotask_ask_unlisted) *ask_unlisted;
    __typeof__(plotask_decode) *decode;
    __typeof__(plotask_encode) *encode;
    __typeof__(plotask_substitute) *substitute;
    __typeof__(plotask_substitute_logged) *substitute_logged;
    __typeof__(plotask_undo) *undo;
    __typeof__(plotask_null_counts) *null_counts;
    __typeof__(plotask_insert) *insert;
};

/* The build with this prefix. Without one it is the library as plotask.h has a host call it. */
#define BUILD(prefix)                                                                                    \
    {                                                                                                    \
        PLOTASK_HEADER_WORDS, prefix##plotask_ask, prefix##plotask_ask_unlisted, prefix##plotask_decode, \
            prefix##plotask_encode, prefix##plotask_substitute, prefix##plotask_substitute_logged,       \
            prefix##plotask_undo, prefix##plotask_null_counts, prefix##plotask_insert                    \
    }

/* Declares the calls of the build with this prefix. */
#define CALLS(prefix)                                                        \
    __typeof__(plotask_ask) prefix##plotask_ask;                             \
    __typeof__(plotask_ask_unlisted) prefix##plotask_ask_unlisted;           \
    __typeof__(plotask_decode) prefix##plotask_decode;                       \
    __typeof__(plotask_encode) prefix##plotask_encode;                       \
    __typeof__(plotask_substitute) prefix##plotask_substitute;               \
    __typeof__(plotask_substitute_logged) prefix##plotask_substitute_logged; \
    __typeof__(plotask_undo) prefix##plotask_undo;                           \
    __typeof__(plotask_null_counts) prefix##plotask_null_counts;             \
    __typeof__(plotask_insert) prefix##plotask_insert

#endif
