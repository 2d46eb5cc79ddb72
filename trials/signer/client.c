/*
 * Asks a signer over its Unix socket, and tells how long each answer took.
 *
 * usage: client SOCKET CLIENTS < REQUESTS
 *
 * A request is its count of bytes (4, big-endian) and the bytes, as they are sent. So many clients, each over a connection of its
 * own, take them in turn from the front of the list. For each request there is a line on standard output, in their order:
 * NANOSECONDS STATUS WORD, from before the first byte is sent to behind the last byte of the answer; WORD is the first word of
 * the body. Behind them stands how many nanoseconds it took in all.
 */
#define _GNU_SOURCE
#include <pthread.h>
#include <stdatomic.h>
#include <stdint.h>
#include <stdio.h>
#include <stdlib.h>
#include <string.h>
#include <sys/socket.h>
#include <sys/un.h>
#include <time.h>
#include <unistd.h>

#define MOST_REQUESTS 65536
#define MOST_CLIENTS 64
#define ROOM (1 << 20)

struct request {
    unsigned char *bytes;
    size_t count;
    int64_t nanoseconds;
    int status;
    char word[16];
};

static struct request requests[MOST_REQUESTS];
static size_t count;
static atomic_size_t next;
static struct sockaddr_un place = {.sun_family = AF_UNIX};

static void give_up(const char *why)
{
    fprintf(stderr, "client: %s\n", why);
    exit(1);
}

static int64_t now(void)
{
    struct timespec time;
    clock_gettime(CLOCK_MONOTONIC, &time);
    return time.tv_sec * 1000000000LL + time.tv_nsec;
}

static void read_requests(void)
{
    unsigned char front[4];
    while (fread(front, 1, 4, stdin) == 4) {
        struct request *one = &requests[count++];
        if (count == MOST_REQUESTS)
            give_up("too many requests");
        one->count = (size_t)front[0] << 24 | (size_t)front[1] << 16 | (size_t)front[2] << 8 | front[3];
        one->bytes = malloc(one->count);
        if (!one->bytes || fread(one->bytes, 1, one->count, stdin) != one->count)
            give_up("a request is cut");
    }
}

/* Reads one answer whole into the room, and answers where its body is. */
static char *read_answer(int link, char *room)
{
    size_t have = 0;
    for (;;) {
        ssize_t came = read(link, room + have, ROOM - 1 - have);
        if (came <= 0)
            give_up("the connection broke off");
        have += (size_t)came;
        room[have] = 0;
        char *body = strstr(room, "\r\n\r\n"), *length = strcasestr(room, "content-length:");
        if (body && length && length < body && have >= (size_t)(body + 4 - room) + strtoul(length + 15, NULL, 10))
            return body + 4;
    }
}

static void ask(int link, struct request *one, char *room)
{
    int64_t began = now();
    for (size_t sent = 0; sent < one->count;) {
        ssize_t went = write(link, one->bytes + sent, one->count - sent);
        if (went <= 0)
            give_up("a request was not taken");
        sent += (size_t)went;
    }
    char *body = read_answer(link, room);
    one->nanoseconds = now() - began;
    one->status = atoi(room + 9);
    sscanf(body, "%15s", one->word);
}

static void *be_client(void *unused)
{
    int link = socket(AF_UNIX, SOCK_STREAM, 0);
    char *room = malloc(ROOM);
    if (link < 0 || !room || connect(link, (struct sockaddr *)&place, sizeof place) != 0)
        give_up("no connection");
    for (size_t at; (at = atomic_fetch_add(&next, 1)) < count;)
        ask(link, &requests[at], room);
    close(link);
    free(room);
    return unused;
}

int main(int many, char **words)
{
    pthread_t clients[MOST_CLIENTS];
    int wanted = many == 3 ? atoi(words[2]) : 0;
    if (wanted < 1 || wanted > MOST_CLIENTS || strlen(words[1]) >= sizeof place.sun_path)
        give_up("usage: client SOCKET CLIENTS < REQUESTS");
    strcpy(place.sun_path, words[1]);
    read_requests();
    int64_t began = now();
    for (int at = 0; at < wanted; at++)
        if (pthread_create(&clients[at], NULL, be_client, NULL) != 0)
            give_up("no thread");
    for (int at = 0; at < wanted; at++)
        pthread_join(clients[at], NULL);
    int64_t ended = now();
    for (size_t at = 0; at < count; at++)
        printf("%lld %d %s\n", (long long)requests[at].nanoseconds, requests[at].status, requests[at].word);
    printf("%lld\n", (long long)(ended - began));
    return 0;
}
