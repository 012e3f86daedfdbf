// Logs what a power cut can undo. Preloaded before libc, each call here is done and then written, in order, to the file that the
// environment variable CUTS_LOG names: a line "kind path offset length", and that many bytes. The kinds are make (of a name),
// truncate (to the offset), write, sync, rename (the bytes are the new path) and unlink. Reads and calls that fail are not
// logged. A path is told as the program gave it, a descriptor's as it was opened; standard output's is "stdout". CUTS_WAIT makes
// each sync last so many microseconds longer.
#define _GNU_SOURCE
#include <fcntl.h>
#include <limits.h>
#include <stdarg.h>
#include <stdio.h>
#include <stdlib.h>
#include <string.h>
#include <sys/syscall.h>
#include <sys/types.h>
#include <unistd.h>

enum { DESCRIPTORS = 256 };

static char paths[DESCRIPTORS][PATH_MAX] = {"stdin", "stdout", "stderr"};
static int log_to = -1, microseconds = 0;

__attribute__((constructor)) static void begin(void) {
    const char *name = getenv("CUTS_LOG"), *wait = getenv("CUTS_WAIT");
    if (name)
        log_to = syscall(SYS_openat, AT_FDCWD, name, O_WRONLY | O_CREAT | O_APPEND | O_CLOEXEC, 0644);
    if (wait)
        microseconds = atoi(wait);
}

// Bytes to the log; a program whose log is not whole must not go on.
static void put(const char *data, size_t n) {
    while (n > 0) {
        ssize_t done = syscall(SYS_write, log_to, data, n);
        if (done <= 0)
            abort();
        data += done;
        n -= done;
    }
}

static void tell(const char *kind, const char *path, long long offset, const char *data, size_t n) {
    char line[PATH_MAX + 64];
    if (log_to < 0)
        return;
    put(line, snprintf(line, sizeof line, "%s %s %lld %zu\n", kind, path, offset, n));
    put(data, n);
}

// The path that a descriptor was opened under.
static const char *path_of(int fd) {
    if (fd < 0 || fd >= DESCRIPTORS || !paths[fd][0])
        abort();
    return paths[fd];
}

int open(const char *path, int flags, ...) {
    va_list rest;
    va_start(rest, flags);
    mode_t mode = flags & O_CREAT ? va_arg(rest, mode_t) : 0;
    va_end(rest);
    int there = syscall(SYS_faccessat, AT_FDCWD, path, F_OK) == 0;
    int fd = syscall(SYS_openat, AT_FDCWD, path, flags, mode);
    if (fd < 0)
        return fd;
    if (fd >= DESCRIPTORS)
        abort();
    snprintf(paths[fd], PATH_MAX, "%s", path);
    if (!there)
        tell("make", path, 0, "", 0);
    else if (flags & O_TRUNC)
        tell("truncate", path, 0, "", 0);
    return fd;
}

ssize_t write(int fd, const void *data, size_t n) {
    ssize_t done = syscall(SYS_write, fd, data, n);
    if (done > 0) {
        off_t end = syscall(SYS_lseek, fd, 0, SEEK_CUR);
        tell("write", path_of(fd), end < 0 ? 0 : end - done, data, done);
    }
    return done;
}

ssize_t pwrite(int fd, const void *data, size_t n, off_t offset) {
    ssize_t done = syscall(SYS_pwrite64, fd, data, n, offset);
    if (done > 0)
        tell("write", path_of(fd), offset, data, done);
    return done;
}

int ftruncate(int fd, off_t length) {
    int failed = syscall(SYS_ftruncate, fd, length);
    if (!failed)
        tell("truncate", path_of(fd), length, "", 0);
    return failed;
}

static int synced(int fd, int failed) {
    if (!failed)
        tell("sync", path_of(fd), 0, "", 0);
    if (microseconds)
        usleep(microseconds);
    return failed;
}

int fdatasync(int fd) {
    return synced(fd, syscall(SYS_fdatasync, fd));
}

int fsync(int fd) {
    return synced(fd, syscall(SYS_fsync, fd));
}

int rename(const char *from, const char *to) {
    int failed = syscall(SYS_renameat2, AT_FDCWD, from, AT_FDCWD, to, 0);
    if (!failed)
        tell("rename", from, 0, to, strlen(to));
    return failed;
}

int unlink(const char *path) {
    int failed = syscall(SYS_unlinkat, AT_FDCWD, path, 0);
    if (!failed)
        tell("unlink", path, 0, "", 0);
    return failed;
}
