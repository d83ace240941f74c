/* Loaded before a program (LD_PRELOAD), makes one call of it fail: the FAIL_ALLOC-th request for memory, or the FAIL_IO-th
   read, write or sync of a file that isn't a standard one. With FAIL_HOW=on so do all behind it, with FAIL_HOW=kill the program is
   killed there. Once it has, a file of the name FAIL_MARK is there. */
#define _GNU_SOURCE
#include <dlfcn.h>
#include <errno.h>
#include <fcntl.h>
#include <signal.h>
#include <stdlib.h>
#include <string.h>
#include <sys/syscall.h>
#include <sys/types.h>
#include <unistd.h>

static long allocs_left = -1, calls_left = -1;

__attribute__((constructor)) static void begin(void) {
    const char *allocs = getenv("FAIL_ALLOC"), *calls = getenv("FAIL_IO");
    allocs_left = allocs ? atol(allocs) : 0;
    calls_left = calls ? atol(calls) : 0;
}

static int fails(long *left, int error) {
    if (*left <= 0 || --*left > 0)
        return 0;
    const char *mark = getenv("FAIL_MARK"), *how = getenv("FAIL_HOW");
    if (mark)
        syscall(SYS_close, syscall(SYS_openat, AT_FDCWD, mark, O_CREAT | O_WRONLY, 0600));
    if (how && !strcmp(how, "kill"))
        raise(SIGKILL);
    if (how && !strcmp(how, "on"))
        *left = 1;
    errno = error;
    return 1;
}

#define REAL(type, name, params, args, room, failed)                      \
    type name params {                                                    \
        static type(*real) params;                                        \
        if (!real)                                                        \
            real = (type(*) params)dlsym(RTLD_NEXT, #name);               \
        return (room) ? failed : real args;                               \
    }

#define DISK (fd > 2 && fails(&calls_left, EIO))

extern void *__libc_malloc(size_t), *__libc_realloc(void *, size_t);

void *malloc(size_t size) { return fails(&allocs_left, ENOMEM) ? NULL : __libc_malloc(size); }

void *realloc(void *at, size_t size) { return fails(&allocs_left, ENOMEM) ? NULL : __libc_realloc(at, size); }

REAL(ssize_t, pread, (int fd, void *to, size_t size, off_t at), (fd, to, size, at), DISK, -1)
REAL(ssize_t, pwrite, (int fd, const void *from, size_t size, off_t at), (fd, from, size, at), DISK, -1)
REAL(int, fsync, (int fd), (fd), DISK, -1)
REAL(int, fdatasync, (int fd), (fd), DISK, -1)
REAL(int, ftruncate, (int fd, off_t size), (fd, size), DISK, -1)
