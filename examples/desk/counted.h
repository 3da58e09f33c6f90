/* A number and what it counts, with an s unless it is one of them, for a format with %u %s%s: "2 rows", "1 row". */
#ifndef COUNTED_H
#define COUNTED_H

#define COUNTED(number, what) (unsigned)(number), what, (number) == 1 ? "" : "s"

#endif
