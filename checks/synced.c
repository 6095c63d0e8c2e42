/* Loaded before the C library: each fsync and fdatasync takes SYNC_DELAY milliseconds more; and where SYNC_LOG names a file, a line goes there for each
   write, sync, rename and shutdown of the process that went well, and for each close: which it is, and the names of what it has to do with. */
#define _GNU_SOURCE
#include <errno.h>
#include <fcntl.h>
#include <stdio.h>
#include <stdlib.h>
#include <sys/socket.h>
#include <sys/syscall.h>
#include <sys/uio.h>
#include <time.h>
#include <unistd.h>

/* The name of what a descriptor stands for. */
static const char *name_of(int place, char *name, size_t room) {
    char link[64];
    ssize_t length;
    snprintf(link, sizeof link, "/proc/self/fd/%d", place);
    length = readlink(link, name, room - 1);
    name[length < 0 ? 0 : length] = 0;
    return name;
}

static void tell(const char *what, const char *first, const char *second) {
    const char *path = getenv("SYNC_LOG");
    char line[9000];
    int before = errno, log, length;
    if (!path)
        return;
    log = syscall(SYS_openat, AT_FDCWD, path, O_WRONLY | O_APPEND | O_CREAT | O_CLOEXEC, 0600);
    length = snprintf(line, sizeof line, "%s %s%s%s\n", what, first, *second ? " " : "", second);
    if (log >= 0) {
        syscall(SYS_write, log, line, length);
        syscall(SYS_close, log);
    }
    errno = before;
}

/* Tells of a call on a descriptor, if it went well. */
static long told(long result, const char *what, int place) {
    char name[4096];
    int before = errno;
    if (result >= 0 && getenv("SYNC_LOG"))
        tell(what, name_of(place, name, sizeof name), "");
    errno = before;
    return result;
}

static void wait_some(void) {
    const char *delay = getenv("SYNC_DELAY");
    long milliseconds = delay ? atol(delay) : 0;
    struct timespec rest = {milliseconds / 1000, milliseconds % 1000 * 1000000};
    while (milliseconds && nanosleep(&rest, &rest) && errno == EINTR) {
    }
}

ssize_t write(int place, const void *bytes, size_t count) { return told(syscall(SYS_write, place, bytes, count), "write", place); }

ssize_t writev(int place, const struct iovec *parts, int count) { return told(syscall(SYS_writev, place, parts, count), "write", place); }

int fsync(int place) {
    wait_some();
    return told(syscall(SYS_fsync, place), "fsync", place);
}

int fdatasync(int place) {
    wait_some();
    return told(syscall(SYS_fdatasync, place), "fdatasync", place);
}

int shutdown(int place, int way) {
    const char *ways[] = {"shutdown_reading", "shutdown_writing", "shutdown_both"};
    return told(syscall(SYS_shutdown, place, way), ways[way % 3], place);
}

int close(int place) {
    char name[4096];
    if (getenv("SYNC_LOG"))
        tell("close", name_of(place, name, sizeof name), "");
    return syscall(SYS_close, place);
}

static int named(int result, const char *from, const char *to) {
    if (result == 0)
        tell("rename", from, to);
    return result;
}

int rename(const char *from, const char *to) { return named(syscall(SYS_rename, from, to), from, to); }

int renameat(int from_folder, const char *from, int to_folder, const char *to) {
    return named(syscall(SYS_renameat, from_folder, from, to_folder, to), from, to);
}

int renameat2(int from_folder, const char *from, int to_folder, const char *to, unsigned flags) {
    return named(syscall(SYS_renameat2, from_folder, from, to_folder, to, flags), from, to);
}
