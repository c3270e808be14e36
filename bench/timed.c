/* Runs a command that many times, its output thrown away, and prints a line for each run: its time and its processor
   time, both in nanoseconds.
   Usage: timed RUNS COMMAND [WORD ...] */
#define _GNU_SOURCE
#include <fcntl.h>
#include <stdio.h>
#include <stdlib.h>
#include <sys/resource.h>
#include <sys/wait.h>
#include <time.h>
#include <unistd.h>

static long long nanoseconds(void)
{
    struct timespec t;
    clock_gettime(CLOCK_MONOTONIC, &t);
    return t.tv_sec * 1000000000LL + t.tv_nsec;
}

static long long of_timeval(struct timeval t)
{
    return t.tv_sec * 1000000000LL + t.tv_usec * 1000LL;
}

int main(int argc, char **argv)
{
    if (argc < 3)
        return 2;
    for (int runs = atoi(argv[1]); runs > 0; runs--) {
        long long from = nanoseconds();
        pid_t child = fork();
        if (child < 0)
            return 1;
        if (child == 0) {
            int nowhere = open("/dev/null", O_WRONLY);
            dup2(nowhere, 1);
            execv(argv[2], argv + 2);
            _exit(127);
        }
        int status;
        struct rusage used;
        if (wait4(child, &status, 0, &used) != child || status != 0)
            return 1;
        long long took = nanoseconds() - from;
        printf("%lld %lld\n", took, of_timeval(used.ru_utime) + of_timeval(used.ru_stime));
    }
    return 0;
}
