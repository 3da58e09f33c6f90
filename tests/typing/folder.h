/* A folder of its own for the files of a test, so that two tests can run at once. */
#ifndef FOLDER_H
#define FOLDER_H

/* Makes a new folder below target/c of the working directory, and goes there. */
void enter_folder(void);
/* Removes the folder and the files in it, and goes back. */
void leave_folder(void);

#endif
