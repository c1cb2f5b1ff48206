/* measure_run PROGRAM ARGUMENT..: runs a program, and prints a line to standard error: its seconds by the clock, those of the user
   and of the system, the most memory that it had, in kilobytes, and its status. The process that starts a program counts for its
   memory, so this one is small. */
#include <stdio.h>
#include <sys/resource.h>
#include <sys/wait.h>
#include <time.h>
#include <unistd.h>

static double now(void)
{
    struct timespec it;
    clock_gettime(CLOCK_MONOTONIC, &it);
    return it.tv_sec + it.tv_nsec / 1e9;
}

static double seconds(struct timeval it)
{
    return it.tv_sec + it.tv_usec / 1e6;
}

int main(int count, char **words)
{
    struct rusage used;
    int status;
    double began = now();
    pid_t started = count > 1 ? fork() : -1;
    if (started == 0) {
        execv(words[1], words + 1);
        _exit(127);
    }
    if (started < 0 || wait4(started, &status, 0, &used) != started)
        return 1;
    fprintf(stderr, "%f %f %f %ld %d\n", now() - began, seconds(used.ru_utime), seconds(used.ru_stime), used.ru_maxrss,
            WIFEXITED(status) ? WEXITSTATUS(status) : -1);
    return 0;
}
