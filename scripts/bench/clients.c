/* Clients of a service that each await an answer before they send the next line.

   clients PORT CLIENTS SECONDS THREADS [FIRST]    prints how many answers came in a second

   First process P asks for process 100 + P, for each client P, up to 64. Then client K starts computations for process K,
   or 64 less, and so on. With FIRST the first of these processes is this one in place of 1. An answer other than
   `ok sent ..` ends the program. */
#include <arpa/inet.h>
#include <netinet/tcp.h>
#include <pthread.h>
#include <stdio.h>
#include <stdlib.h>
#include <string.h>
#include <sys/epoll.h>
#include <sys/socket.h>
#include <time.h>
#include <unistd.h>

enum { MOST_CLIENTS = 256, MOST_THREADS = 16, MOST_PROCESSES = 64 };

static int port, clients, threads, first = 1;
static double seconds, began;
static long answers[MOST_THREADS];

static double now(void) {
    struct timespec time;
    clock_gettime(CLOCK_MONOTONIC, &time);
    return (double)time.tv_sec + (double)time.tv_nsec * 1e-9;
}

static void stop(const char *why) {
    fprintf(stderr, "%s\n", why);
    _exit(1);
}

static int dial(void) {
    struct sockaddr_in at = {.sin_family = AF_INET, .sin_port = htons((unsigned short)port)};
    at.sin_addr.s_addr = htonl(INADDR_LOOPBACK);
    int yes = 1, made = socket(AF_INET, SOCK_STREAM, 0);
    if (made < 0 || connect(made, (void *)&at, sizeof at)) stop("no connection");
    setsockopt(made, IPPROTO_TCP, TCP_NODELAY, &yes, sizeof yes);
    return made;
}

static void say(int client, const char *text) {
    ssize_t length = (ssize_t)strlen(text);
    if (write(client, text, (size_t)length) != length) stop("a line could not be sent");
}

/* Has each process wait that computations are started for. */
static void ask_all(void) {
    int client = dial();
    char text[256];
    for (int p = 1; p <= clients && p <= MOST_PROCESSES; p++) {
        snprintf(text, sizeof text, "ask %d %d\n", first + p - 1, 100 + first + p - 1);
        say(client, text);
        ssize_t length = read(client, text, sizeof text - 1);
        if (length <= 0 || strncmp(text, "ok sent", 7)) stop("an ask was refused");
    }
    close(client);
}

static void start_one(int client, int k) {
    char text[32];
    snprintf(text, sizeof text, "start %d\n", (k - 1) % MOST_PROCESSES + first);
    say(client, text);
}

/* The clients of a thread: each `threads`th one. */
static void *run(void *number) {
    long lane = (long)number;
    int poll = epoll_create1(0), sockets[MOST_CLIENTS + 1];
    char text[256];
    struct epoll_event ready[MOST_CLIENTS];
    for (int k = (int)lane + 1; k <= clients; k += threads) {
        struct epoll_event event = {.events = EPOLLIN, .data.u32 = (unsigned)k};
        sockets[k] = dial();
        epoll_ctl(poll, EPOLL_CTL_ADD, sockets[k], &event);
        start_one(sockets[k], k);
    }
    while (now() - began < seconds) {
        int count = epoll_wait(poll, ready, MOST_CLIENTS, 1000);
        for (int at = 0; at < count; at++) {
            int k = (int)ready[at].data.u32;
            ssize_t length = read(sockets[k], text, sizeof text - 1);
            if (length <= 0) stop("a connection ended");
            text[length] = 0;
            if (strncmp(text, "ok sent", 7)) stop(text);
            answers[lane]++;
            start_one(sockets[k], k);
        }
    }
    return NULL;
}

int main(int count, char **words) {
    if (count != 5 && count != 6) stop("usage: clients PORT CLIENTS SECONDS THREADS [FIRST]");
    pthread_t made[MOST_THREADS];
    long all = 0;
    port = atoi(words[1]), clients = atoi(words[2]), seconds = atof(words[3]), threads = atoi(words[4]);
    if (count == 6) first = atoi(words[5]);
    if (clients < 1 || clients > MOST_CLIENTS || threads < 1 || threads > MOST_THREADS) stop("too many");
    ask_all();
    began = now();
    for (long k = 0; k < threads; k++) pthread_create(&made[k], NULL, run, (void *)k);
    for (int k = 0; k < threads; k++) pthread_join(made[k], NULL), all += answers[k];
    printf("%.0f\n", (double)all / (now() - began));
    return 0;
}
