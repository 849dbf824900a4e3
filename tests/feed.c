/*
 * Gives a program its input as a bad line does.
 *   feed pieces SIZE MILLISECONDS   writes its input on in pieces of SIZE bytes, with a pause after each
 *   feed stall PROGRAM              runs the program on a pipe that holds this one's input, up to 64 KiB; a read after it fails, and is no end
 */
#define _DEFAULT_SOURCE
#include <fcntl.h>
#include <stdio.h>
#include <stdlib.h>
#include <string.h>
#include <sys/wait.h>
#include <time.h>
#include <unistd.h>

enum { MOST = 1 << 16 };

static char bytes[MOST];

/* answers how many bytes there were, up to `most` */
static size_t take(size_t most)
{
    size_t len = 0;
    ssize_t got;
    while (len < most && (got = read(STDIN_FILENO, bytes + len, most - len)) > 0)
        len += (size_t)got;
    return len;
}

static int pieces(size_t size, long milliseconds)
{
    const struct timespec pause = {milliseconds / 1000, milliseconds % 1000 * 1000000};
    size_t len;
    while ((len = take(size)) > 0) {
        if (write(STDOUT_FILENO, bytes, len) != (ssize_t)len)
            return 1;
        if (milliseconds > 0)
            nanosleep(&pause, NULL);
    }
    return 0;
}

/* the end for writing stays open in this process and the end for reading never waits: once the pipe is empty, a read fails */
static int stall(char **program)
{
    int ends[2], status = 0;
    size_t len = take(MOST);
    pid_t child;
    if (pipe(ends) != 0 || fcntl(ends[0], F_SETFL, O_NONBLOCK) != 0 || write(ends[1], bytes, len) != (ssize_t)len || (child = fork()) < 0)
        return 126;
    if (child == 0) {
        if (dup2(ends[0], STDIN_FILENO) == STDIN_FILENO && close(ends[1]) == 0)
            execv(program[0], program);
        _exit(127);
    }
    if (waitpid(child, &status, 0) != child)
        return 126;
    return WIFEXITED(status) ? WEXITSTATUS(status) : 128 + WTERMSIG(status);
}

int main(int argc, char **argv)
{
    size_t size = argc == 4 && strcmp(argv[1], "pieces") == 0 ? strtoul(argv[2], NULL, 10) : 0;
    if (size > 0 && size <= MOST)
        return pieces(size, strtol(argv[3], NULL, 10));
    if (argc > 2 && strcmp(argv[1], "stall") == 0)
        return stall(argv + 2);
    fputs("usage: feed pieces SIZE MILLISECONDS, SIZE 1 to 65536; feed stall PROGRAM\n", stderr);
    return 2;
}
