/* Clients of etcd's JSON gateway that each await an answer before they put the next value.

   puts PORT CLIENTS SECONDS    prints how many answers came in a second

   Client K puts a value of some bytes under the key K, over a connection that it keeps. An answer other than `200 OK`,
   with its length, ends the program. */
#include <arpa/inet.h>
#include <netinet/tcp.h>
#include <stdio.h>
#include <stdlib.h>
#include <string.h>
#include <strings.h>
#include <sys/epoll.h>
#include <sys/socket.h>
#include <time.h>
#include <unistd.h>

enum { MOST_CLIENTS = 256, LINE = 2048, ANSWER = 8192 };

struct client {
    int socket;
    size_t length;
    char answer[ANSWER];
};

static struct client clients[MOST_CLIENTS];
static char requests[MOST_CLIENTS][LINE];

static double now(void) {
    struct timespec time;
    clock_gettime(CLOCK_MONOTONIC, &time);
    return (double)time.tv_sec + (double)time.tv_nsec * 1e-9;
}

static void stop(const char *why) {
    fprintf(stderr, "%s\n", why);
    _exit(1);
}

static int dial(int port) {
    struct sockaddr_in at = {.sin_family = AF_INET, .sin_port = htons((unsigned short)port)};
    at.sin_addr.s_addr = htonl(INADDR_LOOPBACK);
    int yes = 1, made = socket(AF_INET, SOCK_STREAM, 0);
    if (made < 0 || connect(made, (void *)&at, sizeof at)) stop("no connection");
    setsockopt(made, IPPROTO_TCP, TCP_NODELAY, &yes, sizeof yes);
    return made;
}

/* Keys and values are in base 64: a key is four letters of the client's number. */
static void write_request(int k) {
    char body[256];
    snprintf(body, sizeof body, "{\"key\":\"a%c%cA\",\"value\":\"c29tZSBieXRlcw==\"}", 'A' + k / 26, 'A' + k % 26);
    snprintf(requests[k], LINE, "POST /v3/kv/put HTTP/1.1\r\nHost: 127.0.0.1\r\nContent-Length: %zu\r\n\r\n%s", strlen(body), body);
}

static void ask(int k) {
    ssize_t length = (ssize_t)strlen(requests[k]);
    if (write(clients[k].socket, requests[k], (size_t)length) != length) stop("a request could not be sent");
}

/* Whether the answer is whole. */
static int is_whole(const struct client *client) {
    const char *end = strstr(client->answer, "\r\n\r\n"), *line = client->answer;
    if (!end) return 0;
    if (strncmp(client->answer, "HTTP/1.1 200", 12)) stop(client->answer);
    while ((line = strstr(line, "\r\n")) && line < end) {
        line += 2;
        if (!strncasecmp(line, "Content-Length:", 15)) return client->length >= (size_t)(end + 4 - client->answer) + strtoul(line + 15, NULL, 10);
    }
    stop("an answer does not say its length");
    return 0;
}

/* Reads what has come of the answer of a client. */
static void read_more(struct client *client) {
    ssize_t length = read(client->socket, client->answer + client->length, ANSWER - 1 - client->length);
    if (length <= 0) stop("a connection ended");
    client->length += (size_t)length;
    client->answer[client->length] = 0;
}

int main(int count, char **words) {
    if (count != 4) stop("usage: puts PORT CLIENTS SECONDS");
    int number = atoi(words[2]), poll = epoll_create1(0);
    double seconds = atof(words[3]), began = now();
    long answers = 0;
    struct epoll_event ready[MOST_CLIENTS];
    if (number < 1 || number > MOST_CLIENTS) stop("too many");
    for (int k = 0; k < number; k++) {
        struct epoll_event event = {.events = EPOLLIN, .data.u32 = (unsigned)k};
        clients[k].socket = dial(atoi(words[1]));
        epoll_ctl(poll, EPOLL_CTL_ADD, clients[k].socket, &event);
        write_request(k);
        ask(k);
    }
    while (now() - began < seconds) {
        int some = epoll_wait(poll, ready, MOST_CLIENTS, 1000);
        for (int at = 0; at < some; at++) {
            int k = (int)ready[at].data.u32;
            read_more(&clients[k]);
            if (!is_whole(&clients[k])) continue;
            answers++;
            clients[k].length = 0;
            ask(k);
        }
    }
    printf("%.0f\n", (double)answers / (now() - began));
    return 0;
}
