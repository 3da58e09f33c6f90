/* Worked queries: case 8 and the plain one beside it, and what shows each part of "when a true is missed". */
#ifndef WORKED_H
#define WORKED_H

void check_worked(void);

#endif
