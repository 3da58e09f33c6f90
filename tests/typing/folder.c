#include "folder.h"

#include <dirent.h>
#include <stdio.h>
#include <stdlib.h>
#include <unistd.h>

static char folder[] = "target/c/desk.XXXXXX";

void enter_folder(void)
{
    if (!mkdtemp(folder) || chdir(folder) != 0) {
        fputs("there is no folder for files below target/c\n", stderr);
        exit(2);
    }
}

void leave_folder(void)
{
    DIR *files = opendir(".");

    for (struct dirent *file; files && (file = readdir(files));)
        unlink(file->d_name);
    if (files)
        closedir(files);
    if (chdir("../../..") != 0 || rmdir(folder) != 0)
        printf("%s is left\n", folder);
}
