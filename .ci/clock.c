/* Sets the time of day of a program: CLOCK holds its nanoseconds since 1970-01-01 in UTC. It is
 * loaded before the C library (LD_PRELOAD). Clocks for durations are unchanged. */
#define _GNU_SOURCE
#include <dlfcn.h>
#include <stdlib.h>
#include <time.h>

int clock_gettime(clockid_t clock, struct timespec *time) {
    const char *text = getenv("CLOCK");
    if (clock == CLOCK_REALTIME && text) {
        unsigned long long nanoseconds = strtoull(text, NULL, 10);
        time->tv_sec = (time_t)(nanoseconds / 1000000000u);
        time->tv_nsec = (long)(nanoseconds % 1000000000u);
        return 0;
    }
    int (*next)(clockid_t, struct timespec *);
    *(void **)&next = dlsym(RTLD_NEXT, "clock_gettime");
    return next(clock, time);
}
