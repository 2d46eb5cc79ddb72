/*
 * Refuses a program one request for memory, to see what the program does then. Loaded by LD_PRELOAD, and set by the
 * environment:
 *
 *   REFUSE_AT=N        the request of this number is refused, counted from 1 over all threads of the process
 *   REFUSE_LATER=1     and all requests behind it are, too: memory stays short
 *   REFUSE_TELL=FILE   at the end the file gets one line: how many requests came
 *   REFUSE_SWEEP=LINE  in place of REFUSE_AT: the sweep below, from the moment at which the program writes this line
 *
 * In a sweep the program, which must have one thread then, goes on from the line over and over, in a process of its own each
 * time: at first with nothing refused, and then with request N refused of those behind the line, for N = 1, 2 and so on, up
 * to a few more than came in any of these processes, since threads may not make as many each time. Standard output gets what
 * they write, and behind what one wrote the line `unrefused N`, where fewer than N requests came, and the line `ended S`,
 * where it ended by a signal or with a status other than 0.
 *
 * A request is a call of malloc, calloc, realloc or aligned_alloc, also those of the C library itself, as for a new thread.
 */
#define _GNU_SOURCE
#include <errno.h>
#include <fcntl.h>
#include <stdatomic.h>
#include <stdio.h>
#include <stdlib.h>
#include <string.h>
#include <sys/mman.h>
#include <sys/syscall.h>
#include <sys/wait.h>
#include <unistd.h>

/* How long one process of a sweep may take, in seconds. One that hangs is ended by SIGALRM. */
#define MOST_SECONDS 60

/* How many numbers are tried behind the greatest that came. */
#define MARGIN 3

/* What glibc calls its own functions. */
extern void *__libc_malloc(size_t size);
extern void *__libc_calloc(size_t count, size_t size);
extern void *__libc_realloc(void *old, size_t size);
extern void *__libc_memalign(size_t alignment, size_t size);

static atomic_long own_requests;
/* In a sweep they stand in memory that all of its processes share. */
static atomic_long *requests = &own_requests;
static long refused_at;
static int later_too;
static const char *line_of_sweep;

__attribute__((constructor)) static void read_environment(void)
{
    const char *at = getenv("REFUSE_AT");
    refused_at = at ? atol(at) : 0;
    later_too = getenv("REFUSE_LATER") != NULL;
    line_of_sweep = getenv("REFUSE_SWEEP");
}

static int is_refused(void)
{
    long number = atomic_fetch_add(requests, 1) + 1;
    if (refused_at == 0 || number < refused_at || (number > refused_at && !later_too))
        return 0;
    errno = ENOMEM;
    return 1;
}

void *malloc(size_t size)
{
    return is_refused() ? NULL : __libc_malloc(size);
}

void *calloc(size_t count, size_t size)
{
    return is_refused() ? NULL : __libc_calloc(count, size);
}

void *realloc(void *old, size_t size)
{
    return is_refused() ? NULL : __libc_realloc(old, size);
}

void *aligned_alloc(size_t alignment, size_t size)
{
    return is_refused() ? NULL : __libc_memalign(alignment, size);
}

static void put(int file, const char *text, long number)
{
    char line[64];
    int length = snprintf(line, sizeof line, "%s %ld\n", text, number);
    syscall(SYS_write, file, line, (size_t)length);
}

/* Waits for a process of a sweep, the one that is refused request `at`, and answers how many requests came in it. */
static long outcome_of(pid_t child, long at)
{
    int status;
    if (waitpid(child, &status, 0) != child)
        _exit(2);
    long came = atomic_load(requests);
    if (came < at)
        put(STDOUT_FILENO, "unrefused", at);
    if (status != 0)
        put(STDOUT_FILENO, "ended", WIFSIGNALED(status) ? 128 + WTERMSIG(status) : WEXITSTATUS(status));
    return came;
}

/* The processes of a sweep. Returns in each of them, and ends the one that was started. */
static void sweep(void)
{
    long most = 0;
    requests = mmap(NULL, sizeof *requests, PROT_READ | PROT_WRITE, MAP_SHARED | MAP_ANONYMOUS, -1, 0);
    if (requests == MAP_FAILED)
        _exit(2);
    for (long at = 0; at <= most + MARGIN; at++) {
        atomic_store(requests, 0);
        pid_t child = fork();
        if (child < 0)
            _exit(2);
        if (child == 0) {
            refused_at = at;
            alarm(MOST_SECONDS);
            return;
        }
        long came = outcome_of(child, at);
        most = came > most ? came : most;
    }
    _exit(0);
}

ssize_t write(int file, const void *bytes, size_t count)
{
    const char *line = line_of_sweep;
    if (line && file == STDOUT_FILENO && count == strlen(line) + 1 && memcmp(bytes, line, count - 1) == 0) {
        line_of_sweep = NULL;
        sweep();
        return (ssize_t)count;
    }
    return syscall(SYS_write, file, bytes, count);
}

__attribute__((destructor)) static void tell(void)
{
    const char *path = getenv("REFUSE_TELL");
    if (!path)
        return;
    int file = open(path, O_WRONLY | O_CREAT | O_TRUNC, 0600);
    put(file, "requests", atomic_load(requests));
    close(file);
}

/* A program with threads ends by it, and then no destructor runs. */
void _exit(int status)
{
    tell();
    syscall(SYS_exit_group, status);
    __builtin_unreachable();
}
