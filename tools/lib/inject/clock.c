/* A preload that sets the system's clock for a program that is linked to the C library.

   CLOCK_FILE   a file that has the seconds since 1970, which may be below 0, or the word `fails`; read at each call

   Other clocks are the system's. Built and driven by tools/cases. */
#define _GNU_SOURCE
#include <dlfcn.h>
#include <errno.h>
#include <stdio.h>
#include <stdlib.h>
#include <time.h>

int clock_gettime(clockid_t clock, struct timespec *time) {
    static int (*real)(clockid_t, struct timespec *);
    if (!real) real = (int (*)(clockid_t, struct timespec *))dlsym(RTLD_NEXT, "clock_gettime");
    const char *name = getenv("CLOCK_FILE");
    if (clock != CLOCK_REALTIME || !name) return real(clock, time);
    FILE *file = fopen(name, "r");
    long long seconds;
    int is_set = file && fscanf(file, "%lld", &seconds) == 1;
    if (file) fclose(file);
    if (!is_set) {
        errno = EINVAL;
        return -1;
    }
    *time = (struct timespec){.tv_sec = seconds, .tv_nsec = 999999999};
    return 0;
}
