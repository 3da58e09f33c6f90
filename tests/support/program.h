/* A program run as a child process, with its input and output in memory. */
#ifndef PROGRAM_H
#define PROGRAM_H

#include <stdbool.h>
#include <stddef.h>
#include <stdint.h>

/* Chooses how many bytes are written at a time; a number below 1 or above what is left stands for all that is left. */
typedef size_t piece_size(void *context);

/*
 * Runs a program, with an argument unless that is null, on input bytes, written to a pipe in pieces (all at once if next_piece is null), and reads its output,
 * cut at room - 1 bytes and ended by 0. Returns whether the program ended by itself with status 0. The program has to
 * read its input before it writes more than a pipe holds.
 */
bool run_program(const char *program, const char *argument, const uint8_t *input, size_t length, piece_size *next_piece,
                 void *context, char *output, size_t room);

#endif
