/* Runs a command and adds a line to a file: the command's processor time in microseconds and its peak memory in KB. The time is that
 * of user and system together, which the kernel counts; how it divides, it only samples. use: once FILE COMMAND.. */
#define _DEFAULT_SOURCE
#include <stdio.h>
#include <sys/resource.h>
#include <sys/wait.h>
#include <unistd.h>

int main(int argc, char **argv) {
    FILE *times = argc > 2 ? fopen(argv[1], "ae") : NULL;
    if (times == NULL) return fprintf(stderr, "use: once FILE COMMAND..\n"), 2;
    pid_t child = fork();
    if (child == 0) {
        execvp(argv[2], argv + 2);
        _exit(127);
    }
    int status;
    struct rusage used;
    if (child < 0 || wait4(child, &status, 0, &used) != child) return 2;
    long seconds = used.ru_utime.tv_sec + used.ru_stime.tv_sec, rest = used.ru_utime.tv_usec + used.ru_stime.tv_usec;
    fprintf(times, "%ld %ld\n", seconds * 1000000 + rest, used.ru_maxrss);
    return fclose(times) != 0 || status != 0;
}
