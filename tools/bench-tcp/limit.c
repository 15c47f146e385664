/* The least that a server of windows costs: so many times a line of 190 bytes to each of four links, and then a line from each
   of them. One thread, no rule of any game. `players` takes it for a server.

   usage: limit PORT TABLES DEEDS */
#include <arpa/inet.h>
#include <netinet/tcp.h>
#include <stdio.h>
#include <stdlib.h>
#include <string.h>
#include <sys/epoll.h>
#include <sys/socket.h>
#include <unistd.h>

static const char hello[] = "{\"type\":\"hello\"}\n";
static const char last[] = "{\"type\":\"end_game\",\"possible_actions\":[{\"type\":\"none\"}]}\n";

static void fail(const char *why) {
    perror(why);
    exit(1);
}

static void say(int fd, const char *line, int length) {
    if (write(fd, line, length) != length) fail("limit: write");
}

/* Listens on a port of this machine. */
static int listening(int port) {
    int fd = socket(AF_INET, SOCK_STREAM, 0), one = 1;
    setsockopt(fd, SOL_SOCKET, SO_REUSEADDR, &one, sizeof one);
    struct sockaddr_in at = {.sin_family = AF_INET, .sin_port = htons(port), .sin_addr.s_addr = htonl(INADDR_LOOPBACK)};
    if (bind(fd, (struct sockaddr *)&at, sizeof at) || listen(fd, 64)) fail("limit: listen");
    return fd;
}

int main(int argc, char **argv) {
    if (argc != 4) return 2;
    int tables = atoi(argv[2]), deeds = atoi(argv[3]), count = tables * 4, left = tables, one = 1;
    int *links = calloc(count, sizeof *links), *heard = calloc(tables, sizeof *heard), *told = calloc(tables, sizeof *told);
    int listener = listening(atoi(argv[1])), poll = epoll_create1(0);
    for (int k = 0; k < count; k++) {
        links[k] = accept(listener, 0, 0);
        setsockopt(links[k], IPPROTO_TCP, TCP_NODELAY, &one, sizeof one);
        struct epoll_event asked = {.events = EPOLLIN, .data.u32 = k};
        epoll_ctl(poll, EPOLL_CTL_ADD, links[k], &asked);
        say(links[k], hello, strlen(hello));
    }
    char line[256], text[65536];
    int length = sprintf(line, "{\"type\":\"tsumo\",\"actor\":1,\"pai\":\"?\",\"fill\":\"%080d\",\"possible_actions\":[{\"type\":\"none\"}]}\n", 0);
    while (left) {
        struct epoll_event ready[64];
        int many = epoll_wait(poll, ready, 64, 30000);
        if (many <= 0) fail("limit: nothing was said for 30 seconds");
        for (int k = 0; k < many; k++) {
            int who = ready[k].data.u32, table = who / 4;
            ssize_t came = read(links[who], text, sizeof text);
            if (came <= 0) {
                close(links[who]);
                continue;
            }
            for (ssize_t i = 0; i < came; i++) heard[table] += text[i] == '\n';
            if (heard[table] < 4 || told[table] == deeds) continue;
            heard[table] = 0;
            told[table]++;
            int over = told[table] == deeds;
            for (int seat = 0; seat < 4; seat++) say(links[table * 4 + seat], over ? last : line, over ? (int)strlen(last) : length);
            left -= over;
        }
    }
    return 0;
}
