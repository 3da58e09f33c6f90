#include "program.h"

#include <sched.h>
#include <signal.h>
#include <stdio.h>
#include <stdlib.h>
#include <sys/wait.h>
#include <unistd.h>

enum { READ_END, WRITE_END };

static _Noreturn void give_up(const char *what)
{
    perror(what);
    exit(1);
}

static _Noreturn void become(const char *program, const char *argument, const int in[2], const int out[2])
{
    signal(SIGPIPE, SIG_DFL);
    dup2(in[READ_END], STDIN_FILENO);
    dup2(out[WRITE_END], STDOUT_FILENO);
    close(in[READ_END]);
    close(in[WRITE_END]);
    close(out[READ_END]);
    close(out[WRITE_END]);
    execl(program, program, argument, (char *)NULL);
    _exit(127);
}

/* A program may end before it has read all of its input; the rest is then not written. */
static void write_input(int to, const uint8_t *input, size_t length, piece_size *next_piece, void *context)
{
    for (size_t at = 0; at < length;) {
        size_t piece = next_piece ? next_piece(context) : length;
        if (piece < 1 || piece > length - at)
            piece = length - at;
        ssize_t written = write(to, input + at, piece);
        if (written < 0)
            return;
        at += (size_t)written;
        sched_yield();
    }
}

static void read_output(int from, char *output, size_t room)
{
    size_t length = 0;
    ssize_t got;
    while (length < room - 1 && (got = read(from, output + length, room - 1 - length)) > 0)
        length += (size_t)got;
    output[length] = '\0';
}

bool run_program(const char *program, const char *argument, const uint8_t *input, size_t length, piece_size *next_piece,
                 void *context, char *output, size_t room)
{
    int in[2];
    int out[2];
    int status;
    signal(SIGPIPE, SIG_IGN);
    if (pipe(in) != 0 || pipe(out) != 0)
        give_up("pipe");
    pid_t child = fork();
    if (child < 0)
        give_up("fork");
    if (child == 0)
        become(program, argument, in, out);
    close(in[READ_END]);
    close(out[WRITE_END]);
    write_input(in[WRITE_END], input, length, next_piece, context);
    close(in[WRITE_END]);
    read_output(out[READ_END], output, room);
    close(out[READ_END]);
    if (waitpid(child, &status, 0) != child)
        give_up("waitpid");
    return WIFEXITED(status) && WEXITSTATUS(status) == 0;
}
