/* Two sites that wait for each other, each a process of its own, over a socket: the run of
 * examples/cycle-over-two-sites.script.
 *
 *   two_sites FOLDER      leaves the journals of the run in FOLDER/one.cmhj and FOLDER/two.cmhj
 *
 * Process 1 lives at site 1 and asks for what process 2 holds, at site 2, which asks for what process 1 holds. A
 * computation that site 1 starts for its process sends a probe round the cycle, and process 1 is declared.
 */
#define _POSIX_C_SOURCE 200809L
#include "cmh.h"

#include <errno.h>
#include <fcntl.h>
#include <stdio.h>
#include <stdlib.h>
#include <string.h>
#include <sys/socket.h>
#include <sys/wait.h>
#include <unistd.h>

enum { EDITION = 1, SITES = 2, PIECE = 256 };

/* One site: its controller, the reader of the link that comes to it, its journal, and the socket to the other site. */
struct peer {
    uint16_t number;
    cmh_site site;
    cmh_reader reader;
    int journal, socket;
};

static void fail(const char *what)
{
    perror(what);
    exit(2);
}

static void expect(const char *what, cmh_code code)
{
    if (code != CMH_OK) {
        fprintf(stderr, "%s: code %u\n", what, (unsigned)code);
        exit(2);
    }
}

static void write_all(int file, const uint8_t *bytes, size_t len)
{
    while (len > 0) {
        ssize_t count = write(file, bytes, len);
        if (count < 0 && errno == EINTR) continue;
        if (count < 0) fail("write");
        bytes += count;
        len -= (size_t)count;
    }
}

/* Numbers are two bytes, the greater first. */
static size_t put(uint8_t *at, uint16_t number)
{
    at[0] = (uint8_t)(number >> 8);
    at[1] = (uint8_t)number;
    return 2;
}

/* The loop: an event, the step, the append, the sync, and only then the frames. */
static void take(struct peer *peer, const uint8_t *event, size_t event_len)
{
    uint8_t entry[CMH_ENTRY_MAX_1];
    size_t entry_len, place = 0;
    uint16_t declared;
    cmh_sending sending;

    expect("step", cmh_site_step(&peer->site, event, event_len, entry, sizeof entry, &entry_len));
    write_all(peer->journal, entry, entry_len);
    if (fsync(peer->journal)) fail("sync");
    while (cmh_entry_sending(EDITION, entry, entry_len, place++, &sending) == CMH_OK)
        write_all(peer->socket, entry + sending.offset, sending.len); /* there is one other site, which is sending.to */
    expect("declared", cmh_entry_declared(EDITION, entry, entry_len, &declared));
    if (declared) printf("site %u declared %u\n", peer->number, declared);
}

static void ask(struct peer *peer, uint16_t asker, uint16_t holder)
{
    uint8_t event[6] = {1};
    put(event + 1, asker);
    event[3] = 1;
    put(event + 4, holder);
    take(peer, event, sizeof event);
}

static void start(struct peer *peer, uint16_t process)
{
    uint8_t event[3] = {3};
    put(event + 1, process);
    take(peer, event, sizeof event);
}

/* Takes a frame that came from the other site; answers how long it was. */
static size_t got(struct peer *peer, const uint8_t *frame)
{
    uint8_t event[3 + 7] = {4};
    size_t len = frame[0] == 3 ? 7 : 5;
    put(event + 1, cmh_reader_sender(&peer->reader));
    memcpy(event + 3, frame, len);
    take(peer, event, 3 + len);
    return len;
}

static void open_peer(struct peer *peer, uint16_t number, int socket, const char *journal)
{
    static const uint16_t rows[] = {1, 1, 1, 2, 1, 2}; /* site 1 has 1 process, 1; site 2 has 1 process, 2 */
    uint16_t other = (uint16_t)(SITES + 1 - number);
    uint8_t header[CMH_HEADER_LEN], hello[CMH_HELLO_LEN];

    memset(peer, 0, sizeof *peer);
    peer->number = number;
    peer->socket = socket;
    peer->journal = open(journal, O_WRONLY | O_CREAT | O_TRUNC, 0644);
    if (peer->journal < 0) fail(journal);
    expect("site", cmh_site_new(&peer->site, EDITION, rows, sizeof rows / sizeof *rows, number));
    expect("reader", cmh_reader_new(&peer->reader, EDITION, &other, 1));
    expect("header", cmh_site_header(&peer->site, header, sizeof header));
    expect("hello", cmh_hello(EDITION, number, hello, sizeof hello));
    write_all(peer->journal, header, sizeof header);
    write_all(peer->socket, hello, sizeof hello);
}

/* Asks, and takes two frames: the request of the other site, and the probe. Site 1 starts a computation in between. */
static void run(uint16_t number, int socket, const char *journal)
{
    struct peer peer;
    uint8_t piece[PIECE], frames[PIECE + CMH_FRAME_LEFT];
    int taken = 0;

    open_peer(&peer, number, socket, journal);
    ask(&peer, number, (uint16_t)(SITES + 1 - number));
    while (taken < 2) {
        ssize_t len = read(socket, piece, sizeof piece);
        size_t count, at = 0;
        if (len < 0 && errno == EINTR) continue;
        if (len <= 0) fail("read");
        expect("feed", cmh_reader_feed(&peer.reader, piece, (size_t)len, frames, sizeof frames, &count));
        while (at < count) {
            at += got(&peer, frames + at);
            if (++taken == 1 && number == 1) start(&peer, 1);
        }
    }
    cmh_reader_free(&peer.reader);
    cmh_site_free(&peer.site);
    if (close(peer.journal)) fail(journal);
}

int main(int count, char **words)
{
    static const char *const names[SITES] = {"one.cmhj", "two.cmhj"};
    char path[SITES][4096];
    int ends[2], status, place;
    pid_t child;

    if (count != 2) {
        fprintf(stderr, "two_sites FOLDER\n");
        return 2;
    }
    if (cmh_version() >> 16 != CMH_VERSION >> 16) {
        fprintf(stderr, "the library is of another version than its header\n");
        return 2;
    }
    for (place = 0; place < SITES; place++)
        snprintf(path[place], sizeof path[place], "%s/%s", words[1], names[place]);
    if (socketpair(AF_UNIX, SOCK_STREAM, 0, ends)) fail("socket");
    child = fork();
    if (child < 0) fail("fork");
    place = child == 0; /* the child is site 2 */
    close(ends[1 - place]);
    run((uint16_t)(place + 1), ends[place], path[place]);
    if (child == 0) return 0;
    return waitpid(child, &status, 0) < 0 || status != 0;
}
