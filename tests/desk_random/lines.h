/* Random lines for the desk: such as a crew might type, and damaged ones. */
#ifndef LINES_H
#define LINES_H

#include "desk/desk.h"
#include "generators/random.h"

enum { LINE_BYTES_ROOM = 3 * LINE_ROOM };

struct any_line {
    char bytes[LINE_BYTES_ROOM];
    size_t length;
};

/* A line of any command, most often one that the desk can do with what it holds now. */
void make_line(struct random *random, struct any_line *line);

/* A line that makes a sheet, one that fills a mark, and one that loads a plot without room, with one mark everywhere. */
void make_sheet_line(struct random *random, struct any_line *line);
void make_fill_line(struct random *random, struct any_line *line);
void make_large_line(struct random *random, struct any_line *line);

/* Bytes changed, cut, doubled or added, brackets taken away, numbers at their limits, or a line that is too long. */
void damage_line(struct random *random, struct any_line *line);

#endif
