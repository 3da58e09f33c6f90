#include "comment.h"

#include <stddef.h>
#include <string.h>

const char *cut_comment(char *line)
{
    char *at = strchr(line, '#');

    if (at)
        *at++ = '\0';
    return at;
}

const char *student_in(const char *comment)
{
    static const char says[] = " a student says ";

    if (!comment || !strstr(comment, "student"))
        return NULL;
    return strncmp(comment, says, strlen(says)) == 0 ? comment + strlen(says) : comment;
}
