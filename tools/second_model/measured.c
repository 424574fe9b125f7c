/* Runs a program once and writes how it ended, the seconds that it took and its greatest memory in KiB:

       measured SECONDS FILE PROGRAM

   The program has the standard input, output and error of this one, and is ended by SIGALRM after so
   many seconds. The kernel counts as memory of a child what its parent has when the child begins, and
   Python has ten times as much as `lab`; so Python starts this small program, and it starts `lab`. */

#include <stdio.h>
#include <stdlib.h>
#include <sys/resource.h>
#include <sys/wait.h>
#include <time.h>
#include <unistd.h>

static double now(void)
{
    struct timespec time;
    clock_gettime(CLOCK_MONOTONIC, &time);
    return time.tv_sec + time.tv_nsec / 1e9;
}

int main(int count, char **arguments)
{
    if (count != 4)
        return 1;
    double begin = now();
    pid_t child = fork();
    if (child == 0) {
        /* an alarm stays set when the process becomes another program */
        alarm(atoi(arguments[1]));
        execv(arguments[3], arguments + 3);
        _exit(127);
    }
    int status;
    struct rusage used;
    if (child < 0 || wait4(child, &status, 0, &used) != child)
        return 1;
    double seconds = now() - begin;
    FILE *told = fopen(arguments[2], "w");
    if (told == NULL || fprintf(told, "%d %f %ld\n", status, seconds, used.ru_maxrss) < 0)
        return 1;
    return fclose(told) == 0 ? 0 : 1;
}
