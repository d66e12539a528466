/* Runs a command, and writes what it took to a file: the most memory that it had at a time, in KB, and its time by the
   clock and in CPU time, in microseconds.

     peak FILE COMMAND..    ends with the status of the command

   What the system reports of a child is at least what its parent had when it began it, so the parent has to be small.
   Driven by tools/bench-memory. */
#include <stdio.h>
#include <stdlib.h>
#include <sys/resource.h>
#include <sys/time.h>
#include <sys/wait.h>
#include <time.h>
#include <unistd.h>

static long since_boot(void) {
    struct timespec now;
    clock_gettime(CLOCK_MONOTONIC, &now);
    return now.tv_sec * 1000000 + now.tv_nsec / 1000;
}

static long microseconds(struct timeval time) {
    return time.tv_sec * 1000000 + time.tv_usec;
}

int main(int count, char **words) {
    if (count < 3) {
        fprintf(stderr, "FILE COMMAND..\n");
        return 2;
    }
    FILE *file = fopen(words[1], "we");
    long began = since_boot();
    pid_t child = file ? fork() : -1;
    if (!child) {
        execvp(words[2], words + 2);
        perror(words[2]);
        _exit(127);
    }
    struct rusage used;
    int status;
    if (child < 0 || wait4(child, &status, 0, &used) < 0) {
        perror("peak");
        return 3;
    }
    long processor = microseconds(used.ru_utime) + microseconds(used.ru_stime);
    fprintf(file, "%ld %ld %ld\n", used.ru_maxrss, since_boot() - began, processor);
    if (fclose(file)) return 3;
    return WIFEXITED(status) ? WEXITSTATUS(status) : 128 + WTERMSIG(status);
}
