/* A line as it is read, from left to right, and the fault that ended the reading. */
#ifndef LINE_H
#define LINE_H

#include <stdbool.h>
#include <stddef.h>
#include <stdint.h>

enum {
    LINE_ROOM = 4096, /* a line and its ending 0: room for 100 nodes, with v0 to v15 and without blanks */
    NAME_BYTES = 16,  /* of a name, at most */
    NAME_ROOM = NAME_BYTES + 1,
    FAULT_BYTES = 256,
    SHOWN_BYTES = 24 /* of a word in a fault, at most */
};

/* What is wrong with a line, and at which byte, counted from 0. */
struct fault {
    uint32_t refusal; /* plotask's number, or 0 if the desk cannot read the line */
    size_t at;
    char text[FAULT_BYTES];
};

struct line {
    const char *text; /* ended by 0 */
    size_t start;     /* its first word */
    size_t at;        /* what comes before is read */
    struct fault fault;
};

/* A run of letters, digits and _; there is none if its length is 0. */
struct word {
    const char *start;
    size_t length;
    size_t at;
};

/* A tab is a blank; other control bytes are refused. */
static inline bool is_control(char c)
{
    return ((unsigned char)c < ' ' && c != '\t') || c == 0x7F;
}

struct line line_of(const char *text);

/* These pass over blanks first. next_at is where the next word or sign stands. */
size_t next_at(struct line *line);
bool at_end(struct line *line);
bool next_is(struct line *line, char sign);
struct word take_word(struct line *line);
/* Take a sign, or make sure that nothing follows. If that fails, it is the line's fault, and they return false. */
bool take_sign(struct line *line, char sign);
bool take_end(struct line *line);
/* A name: a letter, then letters, digits and _, and neither like a mark (m4) nor like a variable (v0). */
bool take_name(struct line *line, const char *what, char name[NAME_ROOM]);

bool word_is(struct word word, const char *text);
/* Reads a word from byte `from` on as a number; what is above `most` becomes `most` + 1. False if it is no number. */
bool word_number(struct word word, size_t from, uint32_t most, uint64_t *number);
/* The same for a letter and a number, such as m4. */
bool word_numbered(struct word word, char letter, uint32_t most, uint64_t *number);

/* Set the line's fault: a refusal, or that something else was expected at a place. Both return false. */
bool refuse(struct line *line, size_t at, uint32_t refusal, const char *format, ...);
bool expected(struct line *line, size_t at, const char *format, ...);

#endif
