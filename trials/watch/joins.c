/*
 * Stands between a watch and the folder in which it keeps logs, to kill it beside a call that joins parts, or to make such a call fail.
 * Loaded by LD_PRELOAD, and set by the environment:
 *
 *   JOIN_IN=DIR      calls on DIR and on files in it are counted, from the first file of DIR that is made with .new behind its name
 *   JOIN_NOTE=FILE   each of them is noted at FILE's end, as a line with its kind
 *   JOIN_KILL=N      the process is killed before the N-th of them, counted from 1
 *   JOIN_FAIL=N      the N-th of them fails with EIO, before anything was done
 *
 * A call is an open, a write, a sync, a rename or a remove.
 */
#define _GNU_SOURCE
#include <errno.h>
#include <fcntl.h>
#include <limits.h>
#include <signal.h>
#include <stdarg.h>
#include <stdatomic.h>
#include <stdio.h>
#include <stdlib.h>
#include <string.h>
#include <sys/syscall.h>
#include <sys/uio.h>
#include <unistd.h>

static const char *folder;
static long killed, failed;
static int notes = -1;
static atomic_long count;
static atomic_int counts;

__attribute__((constructor)) static void read_environment(void)
{
    const char *path = getenv("JOIN_NOTE"), *kill = getenv("JOIN_KILL"), *fail = getenv("JOIN_FAIL");
    folder = getenv("JOIN_IN");
    killed = kill ? atol(kill) : 0;
    failed = fail ? atol(fail) : 0;
    if (path && (notes = (int)syscall(SYS_openat, AT_FDCWD, path, O_WRONLY | O_CREAT | O_APPEND | O_CLOEXEC, 0600)) < 0)
        _exit(70);
}

/* Whether the folder, or something in it, has this path. */
static int is_within(const char *path)
{
    size_t length = folder ? strlen(folder) : 0;
    return length && strncmp(path, folder, length) == 0 && (path[length] == '/' || path[length] == 0);
}

static int is_file_within(int file)
{
    char link[32], path[PATH_MAX];
    snprintf(link, sizeof link, "/proc/self/fd/%d", file);
    ssize_t length = readlink(link, path, sizeof path - 1);
    if (length < 0)
        return 0;
    path[length] = 0;
    return is_within(path);
}

/* A call begins. Answers whether it is to fail. */
static int fails(const char *kind)
{
    if (!atomic_load(&counts))
        return 0;
    long number = atomic_fetch_add(&count, 1) + 1;
    if (number == killed)
        syscall(SYS_kill, getpid(), SIGKILL);
    if (notes >= 0 && syscall(SYS_write, notes, kind, strlen(kind)) < 0)
        _exit(70);
    if (number != failed)
        return 0;
    errno = EIO;
    return 1;
}

static int opened(const char *path, int flags, mode_t mode)
{
    size_t length = strlen(path);
    if (is_within(path)) {
        if ((flags & O_CREAT) && length > 4 && strcmp(path + length - 4, ".new") == 0)
            atomic_store(&counts, 1);
        if (fails("open\n"))
            return -1;
    }
    return (int)syscall(SYS_openat, AT_FDCWD, path, flags, mode);
}

int open(const char *path, int flags, ...)
{
    va_list rest;
    va_start(rest, flags);
    mode_t mode = flags & O_CREAT ? va_arg(rest, mode_t) : 0;
    va_end(rest);
    return opened(path, flags, mode);
}

ssize_t write(int file, const void *bytes, size_t size)
{
    if (is_file_within(file) && fails("write\n"))
        return -1;
    return syscall(SYS_write, file, bytes, size);
}

ssize_t writev(int file, const struct iovec *parts, int size)
{
    if (is_file_within(file) && fails("write\n"))
        return -1;
    return syscall(SYS_writev, file, parts, size);
}

int fsync(int file)
{
    if (is_file_within(file) && fails("sync\n"))
        return -1;
    return (int)syscall(SYS_fsync, file);
}

int fdatasync(int file)
{
    if (is_file_within(file) && fails("sync\n"))
        return -1;
    return (int)syscall(SYS_fdatasync, file);
}

int rename(const char *from, const char *to)
{
    if (is_within(to) && fails("rename\n"))
        return -1;
    return (int)syscall(SYS_renameat, AT_FDCWD, from, AT_FDCWD, to);
}

int unlink(const char *path)
{
    if (is_within(path) && fails("remove\n"))
        return -1;
    return (int)syscall(SYS_unlinkat, AT_FDCWD, path, 0);
}
