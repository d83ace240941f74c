/* So many clients at once: each has a connection, sends a request, reads to the end of its answer, and goes on with the next one.

       clients PORT CLIENTS

   All requests are read from standard input before the first is sent: of each its length, four bytes, and its bytes, which end the
   connection. A line tells of each, in their order: the status of the answer, and the microseconds at which it was begun and ended. */
#define _GNU_SOURCE
#include <arpa/inet.h>
#include <errno.h>
#include <poll.h>
#include <stdint.h>
#include <stdio.h>
#include <stdlib.h>
#include <string.h>
#include <time.h>
#include <unistd.h>

enum { HEAD = 13, MOST = 1024, PATIENCE = 120000 };

struct request {
    const char *bytes;
    uint32_t length, came;
    char head[HEAD];
    long begun, ended;
};

static long now(void) {
    struct timespec at;
    clock_gettime(CLOCK_MONOTONIC, &at);
    return at.tv_sec * 1000000 + at.tv_nsec / 1000;
}

/* All of standard input; SIZE is how much it is. */
static char *given(size_t *size) {
    size_t room = 1 << 20, got;
    char *all = malloc(room);
    for (*size = 0; all && (got = fread(all + *size, 1, room - *size, stdin)) > 0; *size += got)
        if (*size + got == room)
            all = realloc(all, room *= 2);
    return all;
}

/* A socket on which the request was sent; -1 where it can't be. */
static int sent(int port, struct request *it) {
    struct sockaddr_in to = {.sin_family = AF_INET, .sin_port = htons(port), .sin_addr.s_addr = htonl(INADDR_LOOPBACK)};
    int made = socket(AF_INET, SOCK_STREAM, 0);
    it->begun = now();
    if (connect(made, (struct sockaddr *)&to, sizeof to))
        return -1;
    for (uint32_t at = 0; at < it->length;) {
        ssize_t took = send(made, it->bytes + at, it->length - at, MSG_NOSIGNAL);
        if (took <= 0)
            return -1;
        at += took;
    }
    return made;
}

/* Whether the answer is at its end, behind what came. */
static int is_over(int from, struct request *it) {
    char piece[65536];
    ssize_t got = recv(from, piece, sizeof piece, MSG_DONTWAIT);
    for (ssize_t at = 0; at < got && it->came < HEAD - 1; at++)
        it->head[it->came++] = piece[at];
    return !got || (got < 0 && errno != EAGAIN && errno != EINTR);
}

int main(int count, char **words) {
    struct pollfd open[MOST];
    struct request *all = NULL, *of[MOST];
    size_t size, number = 0, next = 0, over = 0;
    int port = count == 3 ? atoi(words[1]) : 0, clients = count == 3 ? atoi(words[2]) : 0;
    char *bytes = given(&size);
    if (!bytes || port < 1 || clients < 1 || clients > MOST)
        return 2;
    for (size_t at = 0; at + 4 <= size; at += 4 + all[number++].length) {
        if (!(all = realloc(all, (number + 1) * sizeof *all)))
            return 1;
        all[number] = (struct request){.bytes = bytes + at + 4};
        memcpy(&all[number].length, bytes + at, 4);
    }
    for (int at = 0; at < clients; at++)
        open[at] = (struct pollfd){-1, POLLIN, 0};
    long begun = now();
    while (over < number) {
        for (int at = 0; at < clients && next < number; at++)
            if (open[at].fd < 0 && (open[at].fd = sent(port, of[at] = all + next++)) < 0)
                return 1;
        if (poll(open, clients, PATIENCE) < 1)
            return 1;
        for (int at = 0; at < clients; at++)
            if (open[at].fd >= 0 && open[at].revents && is_over(open[at].fd, of[at])) {
                of[at]->ended = now();
                close(open[at].fd);
                open[at].fd = -1;
                over++;
            }
    }
    for (size_t at = 0; at < number; at++)
        printf("%d %ld %ld\n", all[at].came < HEAD - 1 ? 0 : atoi(all[at].head + 9), all[at].begun - begun, all[at].ended - begun);
    return 0;
}
