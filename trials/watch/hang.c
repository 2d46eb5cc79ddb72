/*
 * Makes a watch wait for its disk. Loaded by LD_PRELOAD, and set by the environment: HANG_NAME is a part of a path, and HANG_SECONDS how
 * long each read (HANG_CALL=read) or sync (HANG_CALL=sync) of a file with such a path waits before it is made.
 */
#define _GNU_SOURCE
#include <stdio.h>
#include <stdlib.h>
#include <string.h>
#include <sys/syscall.h>
#include <unistd.h>

static void hang(int file, const char *call)
{
    char link[32], path[4096];
    const char *wanted = getenv("HANG_CALL"), *name = getenv("HANG_NAME"), *seconds = getenv("HANG_SECONDS");
    if (!wanted || strcmp(wanted, call) || !name || !seconds)
        return;
    snprintf(link, sizeof link, "/proc/self/fd/%d", file);
    ssize_t length = readlink(link, path, sizeof path - 1);
    if (length < 0)
        return;
    path[length] = 0;
    if (strstr(path, name))
        sleep(atoi(seconds));
}

ssize_t read(int file, void *into, size_t most)
{
    hang(file, "read");
    return syscall(SYS_read, file, into, most);
}

int fsync(int file)
{
    hang(file, "sync");
    return syscall(SYS_fsync, file);
}

int fdatasync(int file)
{
    hang(file, "sync");
    return syscall(SYS_fdatasync, file);
}
