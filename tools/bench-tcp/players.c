/* Players that answer at once: so many tables of four links in one process, each line answered by the first of its
   `possible_actions`. With `rooms` each join names the room of its table. It prints the deeds that a seat of each table was
   told of and the microseconds that one took, from the first line of a game to the last.

   usage: players PORT TABLES [rooms] */
#include <arpa/inet.h>
#include <netinet/tcp.h>
#include <stdio.h>
#include <stdlib.h>
#include <string.h>
#include <sys/epoll.h>
#include <sys/socket.h>
#include <time.h>
#include <unistd.h>

#define ROOM 65536

struct seat {
    int fd, table, place, done;
    size_t held;
    char text[ROOM];
};

static int rooms;
static long deeds;
static double begin;

static double now(void) {
    struct timespec t;
    clock_gettime(CLOCK_MONOTONIC, &t);
    return t.tv_sec + t.tv_nsec / 1e9;
}

static void fail(const char *why) {
    fprintf(stderr, "players: %s\n", why);
    exit(1);
}

/* Opens a link to the server. */
static int linked(int port) {
    int fd = socket(AF_INET, SOCK_STREAM, 0), one = 1;
    struct sockaddr_in to = {.sin_family = AF_INET, .sin_port = htons(port), .sin_addr.s_addr = htonl(INADDR_LOOPBACK)};
    if (connect(fd, (struct sockaddr *)&to, sizeof to)) fail("no server listens there");
    setsockopt(fd, IPPROTO_TCP, TCP_NODELAY, &one, sizeof one);
    return fd;
}

/* Writes the answer to a line, and returns its length. */
static int answer(struct seat *seat, char *line, char *out) {
    if (strstr(line, "\"type\":\"hello\"")) {
        if (rooms) return sprintf(out, "{\"type\":\"join\",\"name\":\"t%dp%d\",\"room\":\"room%d\"}\n", seat->table, seat->place, seat->table + 1);
        return sprintf(out, "{\"type\":\"join\",\"name\":\"t%dp%d\"}\n", seat->table, seat->place);
    }
    if (strstr(line, "\"type\":\"error\"")) fail(line);
    if (!begin) begin = now();
    if (seat->place == 0) deeds++;
    char *first = strstr(line, "\"possible_actions\":[");
    if (!first) fail("a line lists no answers");
    first += strlen("\"possible_actions\":[");
    int length = strchr(first, '}') - first + 1;
    memcpy(out, first, length);
    out[length] = '\n';
    return length + 1;
}

/* Reads what a link has, and answers each whole line; returns how many games it saw the end of. */
static int hear(struct seat *seat) {
    ssize_t came = read(seat->fd, seat->text + seat->held, ROOM - seat->held);
    if (came <= 0) {
        if (!seat->done) fail("a link ended early");
        close(seat->fd);
        return 0;
    }
    seat->held += came;
    int ended = 0;
    char *at = seat->text, *end;
    while ((end = memchr(at, '\n', seat->text + seat->held - at))) {
        char out[1024];
        *end = 0;
        int length = answer(seat, at, out);
        if (strstr(at, "\"type\":\"end_game\"")) {
            seat->done = 1;
            ended = 1;
        }
        if (write(seat->fd, out, length) != length && !seat->done) fail("a write failed");
        at = end + 1;
    }
    seat->held -= at - seat->text;
    memmove(seat->text, at, seat->held);
    return ended;
}

int main(int argc, char **argv) {
    if (argc < 3) fail("usage: players PORT TABLES [rooms]");
    int port = atoi(argv[1]), count = atoi(argv[2]) * 4, left = count, poll = epoll_create1(0);
    rooms = argc > 3;
    struct seat *seats = calloc(count, sizeof *seats);
    for (int k = 0; k < count; k++) {
        seats[k].table = k / 4;
        seats[k].place = k % 4;
        seats[k].fd = linked(port);
        struct epoll_event asked = {.events = EPOLLIN, .data.ptr = &seats[k]};
        epoll_ctl(poll, EPOLL_CTL_ADD, seats[k].fd, &asked);
    }
    while (left) {
        struct epoll_event ready[64];
        int many = epoll_wait(poll, ready, 64, 30000);
        if (many <= 0) fail("nothing was said for 30 seconds");
        for (int k = 0; k < many; k++) left -= hear(ready[k].data.ptr);
    }
    double taken = now() - begin;
    printf("%ld deeds %.1f microseconds a deed\n", deeds, taken * 1e6 / deeds);
    return 0;
}
