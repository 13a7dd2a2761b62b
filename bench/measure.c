/* Runs a program and tells, on standard error, its processor seconds, its peak memory in KiB, and its seconds on the wall.
   Standard error of the program goes to /dev/null. A small process of its own, since a child's peak memory begins with its parent's.
   cc -O2 -o measure measure.c && measure PROGRAM WORDS.. */
#include <fcntl.h>
#include <stdio.h>
#include <sys/resource.h>
#include <sys/wait.h>
#include <time.h>
#include <unistd.h>

static double seconds_now(void) {
    struct timespec now;
    clock_gettime(CLOCK_MONOTONIC, &now);
    return now.tv_sec + now.tv_nsec / 1e9;
}

int main(int count, char **words) {
    if (count < 2) return 1;
    double begun = seconds_now();
    pid_t child = fork();
    if (child < 0) return 1;
    if (child == 0) {
        dup2(open("/dev/null", O_WRONLY), 2);
        execvp(words[1], words + 1);
        _exit(127);
    }
    int status;
    struct rusage used;
    if (wait4(child, &status, 0, &used) != child) return 1;
    double seconds = used.ru_utime.tv_sec + used.ru_stime.tv_sec;
    seconds += (used.ru_utime.tv_usec + used.ru_stime.tv_usec) / 1e6;
    fprintf(stderr, "%f %ld %f\n", seconds, used.ru_maxrss, seconds_now() - begun);
    return WIFEXITED(status) ? WEXITSTATUS(status) : 1;
}
