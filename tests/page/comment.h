/* The comment of a typed line, and the student who may speak in it. */
#ifndef COMMENT_H
#define COMMENT_H

/* Ends the line before its comment, and returns what follows the `#`; null if it has none. */
const char *cut_comment(char *line);

/* The WHAT of ` a student says WHAT`; the whole comment if it speaks of a student otherwise; null if it does not. */
const char *student_in(const char *comment);

#endif
