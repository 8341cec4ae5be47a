/* Clients of a server, each a connection of its own, all in one thread: each sends its next line when its reply has come, so each always
   has one line under way. They cost a machine little beside what clients in processes of their own cost it: one call that sends a line,
   one that reads its reply, and one wait for all replies that are there. For Linux.

   clients PORT CONNECTIONS FIRST COUNT BEGINNING

   The input has, of each connection in turn, FIRST lines that are sent before the clock starts, and COUNT that are timed; each stands
   behind its length, four bytes with the least one first. A reply ends with a line end, and that of a line that is timed begins with
   BEGINNING; else the status is 1. Printed are the seconds, and the processor seconds that the clients took meanwhile. */
#define _GNU_SOURCE
#include <arpa/inet.h>
#include <err.h>
#include <netinet/tcp.h>
#include <stdint.h>
#include <stdio.h>
#include <stdlib.h>
#include <string.h>
#include <sys/epoll.h>
#include <sys/resource.h>
#include <sys/socket.h>
#include <time.h>
#include <unistd.h>

enum { MOST = 1024, REPLY = 4096 };

struct client {
    int socket;
    long left;           /* lines that were not sent */
    const uint8_t *next; /* the first of them, behind its length */
    char reply[REPLY];
    size_t length; /* of the part of a reply that came */
};

static struct client clients[MOST];

static uint8_t *input(void) {
    size_t room = 1 << 20, length = 0;
    uint8_t *bytes = malloc(room);
    for (ssize_t more; bytes && (more = read(0, bytes + length, room - length)) > 0;)
        if ((length += (size_t)more) == room) bytes = realloc(bytes, room *= 2);
    if (!bytes) errx(1, "no memory");
    return bytes;
}

static size_t length_of(const uint8_t *line) {
    return line[0] | (size_t)line[1] << 8 | (size_t)line[2] << 16 | (size_t)line[3] << 24;
}

static const uint8_t *behind(const uint8_t *line, long lines) {
    for (; lines > 0; lines--) line += 4 + length_of(line);
    return line;
}

static int connection(int port) {
    int made = socket(AF_INET, SOCK_STREAM, 0), yes = 1;
    struct sockaddr_in to = {.sin_family = AF_INET, .sin_port = htons((uint16_t)port), .sin_addr.s_addr = htonl(INADDR_LOOPBACK)};
    if (made < 0 || connect(made, (struct sockaddr *)&to, sizeof to) < 0) err(1, "no connection");
    if (setsockopt(made, IPPROTO_TCP, TCP_NODELAY, &yes, sizeof yes) < 0) err(1, "a connection");
    return made;
}

static void send_next(struct client *client) {
    size_t length = length_of(client->next);
    if (send(client->socket, client->next + 4, length, 0) != (ssize_t)length) err(1, "a line was not sent");
    client->next += 4 + length;
    client->left--;
}

/* Whether the reply is there, whole, after one more call. */
static int has_replied(struct client *client, const char *beginning) {
    ssize_t more = recv(client->socket, client->reply + client->length, REPLY - client->length, 0);
    if (more <= 0) errx(1, "a connection was closed early");
    client->length += (size_t)more;
    if (client->reply[client->length - 1] != '\n') return 0;
    if (client->length < strlen(beginning) || memcmp(client->reply, beginning, strlen(beginning)) != 0)
        errx(1, "another reply: %.*s", (int)client->length, client->reply);
    client->length = 0;
    return 1;
}

static void send_first(struct client *client, long first) {
    for (client->left = first; client->left > 0;) {
        send_next(client);
        while (!has_replied(client, "")) {}
    }
}

static double seconds(clockid_t clock) {
    struct timespec now;
    clock_gettime(clock, &now);
    return (double)now.tv_sec + (double)now.tv_nsec / 1e9;
}

/* Sends all lines, each connection its next one when its reply has come. */
static void send_all(int events, int connections, const char *beginning) {
    struct epoll_event ready[MOST];
    for (int i = 0; i < connections; i++) send_next(&clients[i]);
    for (int under_way = connections; under_way > 0;) {
        int some = epoll_wait(events, ready, MOST, -1);
        for (int i = 0; i < some; i++) {
            struct client *client = ready[i].data.ptr;
            if (!has_replied(client, beginning)) continue;
            if (client->left > 0) send_next(client);
            else under_way--;
        }
    }
}

int main(int words, char **word) {
    if (words != 6) errx(2, "clients PORT CONNECTIONS FIRST COUNT BEGINNING");
    int connections = atoi(word[2]), events = epoll_create1(0);
    long first = atol(word[3]), count = atol(word[4]);
    if (connections < 1 || connections > MOST || count < 1 || events < 0) errx(2, "1 to %d connections, of 1 line or more", MOST);
    const uint8_t *lines = input();
    for (int i = 0; i < connections; i++, lines = behind(lines, first + count))
        clients[i] = (struct client){.socket = connection(atoi(word[1])), .next = lines};
    for (int i = 0; i < connections; i++) {
        struct epoll_event when = {.events = EPOLLIN, .data.ptr = &clients[i]};
        send_first(&clients[i], first);
        clients[i].left = count;
        if (epoll_ctl(events, EPOLL_CTL_ADD, clients[i].socket, &when) < 0) err(1, "a connection");
    }
    double began = seconds(CLOCK_MONOTONIC), used = seconds(CLOCK_PROCESS_CPUTIME_ID);
    send_all(events, connections, word[5]);
    printf("%.6f %.6f\n", seconds(CLOCK_MONOTONIC) - began, seconds(CLOCK_PROCESS_CPUTIME_ID) - used);
    return 0;
}
