/* Loaded before a program (LD_PRELOAD), makes each fsync and fdatasync take SLOW_DISK microseconds longer, as a disk does that has to
   write first, and adds it to the number, eight bytes, that the file SYNCS has. */
#define _GNU_SOURCE
#include <errno.h>
#include <fcntl.h>
#include <stdlib.h>
#include <sys/mman.h>
#include <sys/syscall.h>
#include <time.h>
#include <unistd.h>

static volatile long *syncs;

__attribute__((constructor)) static void opened(void) {
    const char *path = getenv("SYNCS");
    int file = path ? open(path, O_RDWR | O_CLOEXEC) : -1;
    void *mapped = file < 0 ? MAP_FAILED : mmap(NULL, sizeof(long), PROT_READ | PROT_WRITE, MAP_SHARED, file, 0);
    if (mapped != MAP_FAILED)
        syncs = mapped;
    if (file >= 0)
        close(file);
}

static int synced(long call, int fd) {
    const char *slow = getenv("SLOW_DISK");
    long micros = slow ? atol(slow) : 0;
    struct timespec left = {micros / 1000000, micros % 1000000 * 1000};
    if (syncs)
        __atomic_fetch_add(syncs, 1, __ATOMIC_RELAXED);
    while (micros && nanosleep(&left, &left) && errno == EINTR)
        ;
    return (int)syscall(call, fd);
}

int fsync(int fd) { return synced(SYS_fsync, fd); }

int fdatasync(int fd) { return synced(SYS_fdatasync, fd); }
