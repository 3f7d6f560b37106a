/* A deadlock of two sites in edition 3 that ends: the process that is declared withdraws, the other one goes on, and then it
 * asks again.
 *
 *   victim FOLDER      leaves the journals of the run in FOLDER/one.cmhj and FOLDER/two.cmhj
 *
 * Process 1 lives at site 1 and process 2 at site 2. Both sites are in this program, and a queue is the link from each to the
 * other.
 */
#define _POSIX_C_SOURCE 200809L
#include "cmh.h"

#include <errno.h>
#include <fcntl.h>
#include <stdio.h>
#include <stdlib.h>
#include <string.h>
#include <unistd.h>

enum { SITES = 2, QUEUE = 16, OTHERS = 8 };

/* A program draws it at random, for each run that begins. */
static const uint8_t world[CMH_WORLD_LEN] = {'v', 'i', 'c', 't', 'i', 'm'};

/* Site 1 has 1 process, 1; site 2 has 1 process, 2. */
static const uint16_t rows[] = {1, 1, 1, 2, 1, 2};

struct message {
    uint8_t bytes[CMH_MESSAGE_MAX];
    size_t len;
};

/* One site, its journal, and the messages that are on the way to it. */
struct peer {
    uint16_t number;
    cmh_site3 site;
    int journal;
    struct message queue[QUEUE];
    size_t first, last;
};

static struct peer peers[SITES];

static void fail(const char *what)
{
    perror(what);
    exit(2);
}

static void expect(const char *what, cmh_code code)
{
    if (code != CMH_OK) {
        fprintf(stderr, "%s: code %u\n", what, (unsigned)code);
        exit(2);
    }
}

static void write_all(int file, const uint8_t *bytes, size_t len)
{
    while (len > 0) {
        ssize_t count = write(file, bytes, len);
        if (count < 0 && errno == EINTR) continue;
        if (count < 0) fail("write");
        bytes += count;
        len -= (size_t)count;
    }
}

/* Numbers are two bytes, the greater first. */
static void put(uint8_t *at, uint16_t number)
{
    at[0] = (uint8_t)(number >> 8);
    at[1] = (uint8_t)number;
}

/* The first half of a step, into as much room as the entry needs. */
static uint8_t *prepare(struct peer *peer, const uint8_t *event, size_t event_len, size_t *len)
{
    size_t room = 64;
    for (;;) {
        uint8_t *entry = malloc(room);
        cmh_code code;
        if (!entry) fail("memory");
        code = cmh_site3_prepare(&peer->site, event, event_len, entry, room, len);
        if (code == CMH_OK) return entry;
        free(entry);
        if (code != CMH_SHORT) expect("prepare", code);
        room = *len;
    }
}

static void send_all(const uint8_t *entry, size_t len)
{
    size_t count, room = len / 16;
    cmh_sending *sent = malloc(room * sizeof *sent);
    if (!sent) fail("memory");
    expect("sendings", cmh_entry3_sendings(entry, len, sent, room, &count));
    for (size_t i = 0; i < count; i++) {
        struct peer *to = &peers[sent[i].to - 1];
        struct message *message = &to->queue[to->last++ % QUEUE];
        memcpy(message->bytes, entry + sent[i].offset, sent[i].len);
        message->len = sent[i].len;
    }
    free(sent);
}

/* The loop: an event, its entry, the append, the sync, and only then the messages. Where the append fails, the site could go
 * on as if there had been no event: by cmh_site3_drop. */
static void take(struct peer *peer, const uint8_t *event, size_t event_len)
{
    size_t len;
    uint8_t *entry = prepare(peer, event, event_len, &len);
    uint16_t process;
    uint64_t stamp;
    write_all(peer->journal, entry, len);
    if (fsync(peer->journal)) fail("sync");
    expect("keep", cmh_site3_keep(&peer->site));
    send_all(entry, len);
    expect("declared", cmh_entry3_declared(entry, len, &process, &stamp));
    if (process) printf("site %u declared %u at %u\n", peer->number, process, (unsigned)stamp);
    free(entry);
}

/* A process asks for what another holds (01), or withdraws its wait for it (07). */
static void name(uint8_t kind, uint16_t process, uint16_t other)
{
    uint8_t event[6] = {kind, 0, 0, 1};
    put(event + 1, process);
    put(event + 4, other);
    take(&peers[process - 1], event, sizeof event);
}

/* A process gives another one what it asked for. */
static void reply(uint16_t holder, uint16_t asker)
{
    uint8_t event[5] = {2};
    put(event + 1, holder);
    put(event + 3, asker);
    take(&peers[holder - 1], event, sizeof event);
}

/* Delivers the first message that is on the way to a site, if there is one. */
static bool deliver(struct peer *peer)
{
    const struct message *message = &peer->queue[peer->first % QUEUE];
    uint8_t event[3 + CMH_MESSAGE_MAX] = {4};
    if (peer->first == peer->last) return false;
    put(event + 1, (uint16_t)(SITES + 1 - peer->number));
    memcpy(event + 3, message->bytes, message->len);
    peer->first++;
    take(peer, event, 3 + message->len);
    return true;
}

static void settle(void)
{
    while (deliver(&peers[0]) || deliver(&peers[1])) {}
}

static void show(const char *when)
{
    printf("%s:", when);
    for (uint16_t process = 1; process <= SITES; process++) {
        cmh_site3 *site = &peers[process - 1].site;
        uint16_t others[OTHERS];
        size_t count;
        expect("waits", cmh_site3_waits(site, process, others, OTHERS, &count));
        printf(count ? " %u waits for %u," : " %u waits for nobody,", process, others[0]);
        expect("leaving", cmh_site3_leaving(site, process, others, OTHERS, &count));
        if (count) printf(" %u leaves %u,", process, others[0]);
        expect("declared", cmh_site3_declared(site, others, OTHERS, &count));
        printf(" %u declared%s", (unsigned)count, process < SITES ? ";" : "\n");
    }
}

static void open_peer(struct peer *peer, uint16_t number, const char *folder, const char *name)
{
    char path[4096];
    uint8_t head[CMH_SITE3_HEAD_LEN];
    snprintf(path, sizeof path, "%s/%s", folder, name);
    peer->number = number;
    peer->journal = open(path, O_WRONLY | O_CREAT | O_TRUNC, 0644);
    if (peer->journal < 0) fail(path);
    expect("site", cmh_site3_new(&peer->site, world, sizeof world, rows, sizeof rows / sizeof *rows, number));
    expect("head", cmh_site3_head(&peer->site, head, sizeof head));
    write_all(peer->journal, head, sizeof head);
}

int main(int count, char **words)
{
    if (count != 2) {
        fprintf(stderr, "victim FOLDER\n");
        return 2;
    }
    if (cmh_version() >> 16 != CMH_VERSION >> 16) {
        fprintf(stderr, "the library is of another version than its header\n");
        return 2;
    }
    open_peer(&peers[0], 1, words[1], "one.cmhj");
    open_peer(&peers[1], 2, words[1], "two.cmhj");

    name(1, 1, 2); /* 1 asks for what 2 holds, and 2 for what 1 holds */
    settle();
    name(1, 2, 1);
    settle();
    show("deadlock");
    name(7, 2, 1); /* 2 withdraws */
    show("withdrawn");
    settle();
    reply(2, 1); /* and gives 1 what it holds */
    settle();
    show("ended");
    name(1, 2, 1); /* it asks again, and gets it */
    settle();
    reply(1, 2);
    settle();
    show("gone on");

    for (size_t at = 0; at < SITES; at++) {
        cmh_site3_free(&peers[at].site);
        if (close(peers[at].journal)) fail("close");
    }
    return 0;
}
