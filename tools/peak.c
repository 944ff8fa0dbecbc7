/* Runs a program, and says how much it took.
 *
 *     peak FILE PROGRAM ARGUMENTS..
 *
 * Into FILE goes one line: the program's exit status, or 256 and the number of the signal that ended it; the
 * seconds of processor that it took, and of the clock; and the most memory that was resident, in kB.
 * That is the program's alone: where a large process starts a program itself, the system counts its
 * own memory in. The status is 0 where the program was run. */
#include <errno.h>
#include <stdio.h>
#include <stdlib.h>
#include <string.h>
#include <sys/resource.h>
#include <sys/wait.h>
#include <time.h>
#include <unistd.h>

static double now(void)
{
    struct timespec t;
    clock_gettime(CLOCK_MONOTONIC, &t);
    return t.tv_sec + t.tv_nsec / 1e9;
}

static double seconds(struct timeval t)
{
    return t.tv_sec + t.tv_usec / 1e6;
}

static void stop(const char *what)
{
    fprintf(stderr, "peak: %s: %s\n", what, strerror(errno));
    exit(1);
}

int main(int count, char **words)
{
    struct rusage used;
    int status;
    if (count < 3) {
        fputs("peak: give FILE, PROGRAM and its arguments\n", stderr);
        return 1;
    }
    double began = now();
    pid_t child = fork();
    if (child < 0) stop("fork");
    if (child == 0) {
        execv(words[2], words + 2);
        stop(words[2]);
    }
    if (wait4(child, &status, 0, &used) != child) stop("wait4");
    double took = now() - began;
    FILE *file = fopen(words[1], "w");
    if (!file) stop(words[1]);
    fprintf(file, "%d %.4f %.4f %ld\n", WIFEXITED(status) ? WEXITSTATUS(status) : 256 + WTERMSIG(status),
            seconds(used.ru_utime) + seconds(used.ru_stime), took, used.ru_maxrss);
    return fclose(file) ? 1 : 0;
}
