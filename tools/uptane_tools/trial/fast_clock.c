/* Loaded before a program (LD_PRELOAD), lets the clock that only counts on go FAST_CLOCK times as fast, and sets the time of day: to
   a moment before 1970 where there is EARLY_CLOCK, and to the whole number of seconds, eight bytes, that the file CLOCK_FILE has then.
   What the system itself waits for stays. */
#define _GNU_SOURCE
#include <fcntl.h>
#include <stdlib.h>
#include <sys/mman.h>
#include <sys/syscall.h>
#include <sys/time.h>
#include <time.h>
#include <unistd.h>

static const volatile long *seconds;

__attribute__((constructor)) static void opened(void) {
    const char *path = getenv("CLOCK_FILE");
    int file = path ? open(path, O_RDONLY | O_CLOEXEC) : -1;
    void *mapped = file < 0 ? MAP_FAILED : mmap(NULL, sizeof(long), PROT_READ, MAP_SHARED, file, 0);
    if (mapped != MAP_FAILED)
        seconds = mapped;
    if (file >= 0)
        close(file);
}

int clock_gettime(clockid_t clock, struct timespec *told) {
    const char *times = getenv("FAST_CLOCK");
    long status = syscall(SYS_clock_gettime, clock, told);
    if (status == 0 && clock == CLOCK_MONOTONIC && times) {
        long long nanos = (told->tv_sec * 1000000000LL + told->tv_nsec) * atoll(times);
        told->tv_sec = nanos / 1000000000;
        told->tv_nsec = nanos % 1000000000;
    }
    if (status == 0 && clock == CLOCK_REALTIME && getenv("EARLY_CLOCK"))
        told->tv_sec = -86400;
    if (status == 0 && clock == CLOCK_REALTIME && seconds)
        told->tv_sec = *seconds;
    return (int)status;
}

time_t time(time_t *told) {
    struct timespec now;
    clock_gettime(CLOCK_REALTIME, &now);
    if (told)
        *told = now.tv_sec;
    return now.tv_sec;
}

int gettimeofday(struct timeval *restrict told, void *restrict zone) {
    struct timespec now;
    (void)zone;
    clock_gettime(CLOCK_REALTIME, &now);
    told->tv_sec = now.tv_sec;
    told->tv_usec = now.tv_nsec / 1000;
    return 0;
}
