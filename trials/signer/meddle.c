/*
 * Stands between a signer and the system, to note what it asks of its disk and its callers, to make a call of the disk fail, to
 * kill it beside one, or to let its clock run fast. Loaded by LD_PRELOAD, and set by the environment:
 *
 *   MEDDLE_NOTE=FILE             the calls below are noted at FILE's end, in the order in which they began or ended
 *   MEDDLE_KILL=KIND:K:WHEN      the process is killed at its K-th call of this kind, counted from 1 over all threads:
 *                                WHEN is before, half (half of the bytes were written or sent) or after
 *   MEDDLE_FAIL=KIND:K:WHEN      the K-th call fails with EIO: before anything was done, or once half was written
 *   MEDDLE_CLOCK=N               the clock that only rises goes N times as fast
 *   MEDDLE_SLEEP=N               each sleep lasts an N-th as long
 *   MEDDLE_SLOW=N                each sync takes N milliseconds more
 *
 * A KIND is write or sync, of a regular file, or send, on a socket. A note is its kind (1 byte: W a write that ended, S a sync
 * that begins, s one that succeeded, T a send that begins), what of (1 byte: l a file named log.hsj, i one named index.hsj, o
 * another), the time in nanoseconds (8 bytes), the place in the file (8), the count of the bytes (4) and the bytes that were
 * written, or that are to be sent. Numbers are big-endian.
 */
#define _GNU_SOURCE
#include <errno.h>
#include <fcntl.h>
#include <limits.h>
#include <pthread.h>
#include <signal.h>
#include <stdatomic.h>
#include <stdint.h>
#include <stdio.h>
#include <stdlib.h>
#include <string.h>
#include <sys/socket.h>
#include <sys/stat.h>
#include <sys/syscall.h>
#include <sys/uio.h>
#include <time.h>
#include <unistd.h>

enum kind { WRITES, SYNCS, SENDS, KINDS };
enum when { BEFORE, HALF, AFTER };

/* The one call that is meddled with: of a kind, by its number. */
struct aim {
    enum kind kind;
    long number;
    enum when when;
};

static const char *const names[KINDS] = {"write", "sync", "send"};
static struct aim killed = {KINDS, 0, BEFORE}, failed = {KINDS, 0, BEFORE};
static atomic_long counts[KINDS];
static pthread_mutex_t order = PTHREAD_MUTEX_INITIALIZER;
static int notes = -1;
static long rate = 1, hurry = 1;
static struct timespec delay;
static struct timespec first_time;

static struct aim aim_of(const char *name)
{
    struct aim aim = {KINDS, 0, BEFORE};
    char kind[16], when[16];
    const char *text = getenv(name);
    if (!text || sscanf(text, "%15[a-z]:%ld:%15[a-z]", kind, &aim.number, when) != 3)
        return aim;
    aim.when = strcmp(when, "half") == 0 ? HALF : strcmp(when, "after") == 0 ? AFTER : BEFORE;
    for (int each = 0; each < KINDS; each++)
        if (strcmp(kind, names[each]) == 0)
            aim.kind = (enum kind)each;
    return aim;
}

__attribute__((constructor)) static void read_environment(void)
{
    const char *path = getenv("MEDDLE_NOTE"), *fast = getenv("MEDDLE_CLOCK"), *slow = getenv("MEDDLE_SLOW");
    const char *hurries = getenv("MEDDLE_SLEEP");
    if (path && (notes = open(path, O_WRONLY | O_CREAT | O_APPEND | O_CLOEXEC, 0600)) < 0)
        _exit(70);
    rate = fast ? atol(fast) : 1;
    hurry = hurries ? atol(hurries) : 1;
    long more = slow ? atol(slow) : 0;
    delay = (struct timespec){more / 1000, more % 1000 * 1000000};
    killed = aim_of("MEDDLE_KILL");
    failed = aim_of("MEDDLE_FAIL");
    syscall(SYS_clock_gettime, CLOCK_MONOTONIC, &first_time);
}

static int is_kind(int file, mode_t kind)
{
    struct stat found;
    return fstat(file, &found) == 0 && (found.st_mode & S_IFMT) == kind;
}

static char part_of(int file)
{
    char link[64], path[PATH_MAX];
    snprintf(link, sizeof link, "/proc/self/fd/%d", file);
    ssize_t length = readlink(link, path, sizeof path - 1);
    if (length < 0)
        return 'o';
    path[length] = 0;
    const char *name = strrchr(path, '/');
    if (name && strcmp(name, "/log.hsj") == 0)
        return 'l';
    return name && strcmp(name, "/index.hsj") == 0 ? 'i' : 'o';
}

static unsigned char *put_number(unsigned char *to, uint64_t number, int bytes)
{
    for (int each = bytes - 1; each >= 0; each--)
        *to++ = (unsigned char)(number >> (8 * each));
    return to;
}

static void note(char kind, int file, uint64_t at, const void *bytes, size_t count)
{
    if (notes < 0)
        return;
    struct timespec time;
    unsigned char front[22] = {(unsigned char)kind, (unsigned char)part_of(file)}, *to = front + 2;
    syscall(SYS_clock_gettime, CLOCK_MONOTONIC, &time);
    to = put_number(to, (uint64_t)time.tv_sec * 1000000000u + (uint64_t)time.tv_nsec, 8);
    to = put_number(to, at, 8);
    put_number(to, count, 4);
    struct iovec parts[2] = {{front, sizeof front}, {(void *)bytes, count}};
    pthread_mutex_lock(&order);
    if (syscall(SYS_writev, notes, parts, 2) != (long)(sizeof front + count))
        syscall(SYS_kill, getpid(), SIGKILL);
    pthread_mutex_unlock(&order);
}

/* Whether the call of this number is the one that is aimed at. */
static int is_aim(const struct aim *aim, enum kind kind, long number)
{
    return aim->kind == kind && aim->number == number;
}

static void die(void)
{
    syscall(SYS_kill, getpid(), SIGKILL);
    for (;;)
        pause();
}

static ssize_t written(int file, const void *bytes, size_t count)
{
    off_t at = lseek(file, 0, SEEK_CUR);
    ssize_t done = syscall(SYS_write, file, bytes, count);
    if (done > 0)
        note('W', file, (uint64_t)at, bytes, (size_t)done);
    return done;
}

ssize_t write(int file, const void *bytes, size_t count)
{
    if (!is_kind(file, S_IFREG))
        return syscall(SYS_write, file, bytes, count);
    long number = atomic_fetch_add(&counts[WRITES], 1) + 1;
    int dies = is_aim(&killed, WRITES, number), fails = is_aim(&failed, WRITES, number);
    if ((dies && killed.when == HALF) || (fails && failed.when == HALF))
        written(file, bytes, count / 2);
    if (dies && killed.when != AFTER)
        die();
    if (fails) {
        errno = EIO;
        return -1;
    }
    ssize_t done = written(file, bytes, count);
    if (dies)
        die();
    return done;
}

int nanosleep(const struct timespec *asked, struct timespec *left)
{
    long long shorter = (asked->tv_sec * 1000000000LL + asked->tv_nsec) / hurry;
    struct timespec time = {shorter / 1000000000LL, shorter % 1000000000LL};
    return (int)syscall(SYS_nanosleep, &time, left);
}

static int synced(int file, long call)
{
    long number = atomic_fetch_add(&counts[SYNCS], 1) + 1;
    int dies = is_aim(&killed, SYNCS, number);
    if (dies && killed.when != AFTER)
        die();
    note('S', file, 0, NULL, 0);
    syscall(SYS_nanosleep, &delay, NULL);
    if (is_aim(&failed, SYNCS, number)) {
        errno = EIO;
        return -1;
    }
    int done = (int)syscall(call, file);
    if (done == 0)
        note('s', file, 0, NULL, 0);
    if (dies)
        die();
    return done;
}

int fsync(int file)
{
    return synced(file, SYS_fsync);
}

int fdatasync(int file)
{
    return synced(file, SYS_fdatasync);
}

ssize_t send(int socket, const void *bytes, size_t count, int flags)
{
    long number = atomic_fetch_add(&counts[SENDS], 1) + 1;
    int dies = is_aim(&killed, SENDS, number);
    if (dies && killed.when == BEFORE)
        die();
    note('T', socket, 0, bytes, count);
    ssize_t done = syscall(SYS_sendto, socket, bytes, dies && killed.when == HALF ? count / 2 : count, flags, NULL, 0);
    if (dies)
        die();
    return done;
}

int clock_gettime(clockid_t clock, struct timespec *time)
{
    int done = (int)syscall(SYS_clock_gettime, clock, time);
    if (done != 0 || clock != CLOCK_MONOTONIC || rate == 1)
        return done;
    int64_t passed = (time->tv_sec - first_time.tv_sec) * 1000000000LL + (time->tv_nsec - first_time.tv_nsec);
    int64_t now = first_time.tv_nsec + passed * rate;
    time->tv_sec = first_time.tv_sec + now / 1000000000LL;
    time->tv_nsec = now % 1000000000LL;
    return 0;
}
