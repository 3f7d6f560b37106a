/* Two sites of edition 3 that wait for each other, each a process of its own, over a socket. Each is killed once and started
 * again on its journal, the link goes on, and the deadlock is found and ends.
 *
 *   two_sites3 FOLDER      leaves the journals of the run in FOLDER/one.cmhj and FOLDER/two.cmhj
 *
 * Site 2 dies as it writes its second entry, half of which is in the file; site 1 once its third entry is synced, and before
 * its message is sent. What a site does next is told by its state, so it does not matter where it was killed.
 */
#define _POSIX_C_SOURCE 200809L
#include "cmh.h"

#include <errno.h>
#include <fcntl.h>
#include <signal.h>
#include <stdio.h>
#include <stdlib.h>
#include <string.h>
#include <sys/socket.h>
#include <sys/stat.h>
#include <sys/un.h>
#include <sys/wait.h>
#include <time.h>
#include <unistd.h>

enum { SITES = 2, ENTRY = 4096, PATH = 100 };

/* A program draws it at random, for each run that begins. */
static const uint8_t world[CMH_WORLD_LEN] = "two sites, no. 3";

/* Site 1 has 1 process, 1; site 2 has 1 process, 2. */
static const uint16_t rows[] = {1, 1, 1, 2, 1, 2};
enum { WORDS = sizeof rows / sizeof *rows };

/* One site, its journal, and its connection to the other site. */
struct peer {
    uint16_t number, other;
    cmh_site3 site;
    char folder[PATH], path[2 * PATH];
    int journal, listener, link;
    unsigned entries, dies_at;
};

static void fail(const char *what)
{
    perror(what);
    exit(2);
}

static void expect(const char *what, cmh_code code)
{
    if (code != CMH_OK) {
        fprintf(stderr, "%s: code %u\n", what, (unsigned)code);
        exit(2);
    }
}

/* Whether all was written; not where the connection has ended. */
static bool write_all(int file, const uint8_t *bytes, size_t len)
{
    while (len > 0) {
        ssize_t count = write(file, bytes, len);
        if (count < 0 && errno == EINTR) continue;
        if (count < 0) return false;
        bytes += count;
        len -= (size_t)count;
    }
    return true;
}

static bool read_all(int file, uint8_t *bytes, size_t len)
{
    while (len > 0) {
        ssize_t count = read(file, bytes, len);
        if (count < 0 && errno == EINTR) continue;
        if (count <= 0) return false;
        bytes += count;
        len -= (size_t)count;
    }
    return true;
}

/* Numbers have the greater byte first. */
static void put(uint8_t *at, uint64_t number, int len)
{
    while (len-- > 0) {
        at[len] = (uint8_t)number;
        number >>= 8;
    }
}

static uint64_t number_at(const uint8_t *at)
{
    uint64_t number = 0;
    for (int i = 0; i < 8; i++) number = number << 8 | at[i];
    return number;
}

/* ---- the journal */

static size_t size_of(const char *path)
{
    struct stat state;
    if (stat(path, &state)) fail(path);
    return (size_t)state.st_size;
}

/* The bytes of a file, which the caller frees. */
static uint8_t *contents(const char *path, size_t *len)
{
    uint8_t *bytes;
    int file = open(path, O_RDONLY);
    if (file < 0) fail(path);
    *len = size_of(path);
    bytes = malloc(*len);
    if (!bytes || !read_all(file, bytes, *len)) fail(path);
    close(file);
    return bytes;
}

static void sync_file(int file)
{
    if (fsync(file)) fail("sync");
}

/* A journal gets its name once it is whole. */
static void begin(struct peer *peer)
{
    char fresh[2 * PATH + 4];
    uint8_t head[CMH_SITE3_HEAD_LEN];
    int file, folder;

    snprintf(fresh, sizeof fresh, "%s.new", peer->path);
    expect("new", cmh_site3_new(&peer->site, world, sizeof world, rows, WORDS, peer->number));
    expect("head", cmh_site3_head(&peer->site, head, sizeof head));
    file = open(fresh, O_WRONLY | O_CREAT | O_TRUNC, 0644);
    if (file < 0 || !write_all(file, head, sizeof head)) fail(fresh);
    sync_file(file);
    close(file);
    if (rename(fresh, peer->path)) fail(peer->path);
    folder = open(peer->folder, O_RDONLY);
    sync_file(folder);
    close(folder);
}

/* What was cut off goes, and what was read is written once more and synced, before anybody hears of it. */
static void open_again(struct peer *peer)
{
    size_t len, from, end;
    uint8_t *bytes = contents(peer->path, &len);
    uint64_t place;
    int file = open(peer->path, O_WRONLY);

    expect("open", cmh_site3_open(&peer->site, world, sizeof world, rows, WORDS, peer->number, bytes, len, &place));
    end = (size_t)place;
    from = end > cmh_site3_entry_max() ? end - cmh_site3_entry_max() : 0;
    if (file < 0 || ftruncate(file, (off_t)end)) fail(peer->path);
    if (lseek(file, (off_t)from, SEEK_SET) < 0 || !write_all(file, bytes + from, end - from)) fail(peer->path);
    sync_file(file);
    close(file);
    free(bytes);
}

/* The loop: an event, its entry, the append, the sync, and only then the messages. Where the connection has ended, they are
 * sent on the next one. */
static void take(struct peer *peer, const uint8_t *event, size_t event_len)
{
    uint8_t entry[ENTRY];
    cmh_sending sent[ENTRY / 16];
    size_t len, count;
    uint16_t process;
    uint64_t stamp;
    bool dies = ++peer->entries == peer->dies_at;

    expect("step", cmh_site3_step(&peer->site, event, event_len, entry, sizeof entry, &len));
    if (!write_all(peer->journal, entry, dies && peer->number == 2 ? len / 2 : len)) fail("append");
    sync_file(peer->journal);
    if (dies) raise(SIGKILL);
    expect("sendings", cmh_entry3_sendings(entry, len, sent, sizeof sent / sizeof *sent, &count));
    for (size_t i = 0; i < count; i++) /* there is one other site, which is sent[i].to */
        if (!write_all(peer->link, entry + sent[i].offset, sent[i].len)) break;
    expect("declared", cmh_entry3_declared(entry, len, &process, &stamp));
    if (process) printf("site %u declared %u at %u\n", peer->number, process, (unsigned)stamp);
}

static void ask_or_withdraw(struct peer *peer, uint8_t kind)
{
    uint8_t event[6] = {kind};
    put(event + 1, peer->number, 2);
    event[3] = 1;
    put(event + 4, peer->other, 2);
    take(peer, event, sizeof event);
}

static void reply(struct peer *peer)
{
    uint8_t event[5] = {2};
    put(event + 1, peer->number, 2);
    put(event + 3, peer->other, 2);
    take(peer, event, sizeof event);
}

/* ---- the state */

enum { ASK = 1, WITHDRAW = 7 };

static bool waits(struct peer *peer)
{
    size_t count;
    uint16_t process;
    expect("waits", cmh_site3_waits(&peer->site, peer->number, &process, 1, &count));
    return count > 0;
}

static bool owes(struct peer *peer)
{
    size_t count;
    uint16_t process;
    expect("owed", cmh_site3_owed(&peer->site, peer->number, &process, 1, &count));
    return count > 0;
}

static bool leaves(struct peer *peer)
{
    size_t count;
    uint16_t process;
    expect("leaving", cmh_site3_leaving(&peer->site, peer->number, &process, 1, &count));
    return count > 0;
}

static bool is_declared(struct peer *peer)
{
    size_t count;
    uint16_t process;
    expect("declared", cmh_site3_declared(&peer->site, &process, 1, &count));
    return count > 0;
}

static bool has_entries(struct peer *peer)
{
    return size_of(peer->path) > CMH_SITE3_HEAD_LEN;
}

/* What the site does by itself in its state; answers whether all is done. */
static bool act(struct peer *peer)
{
    if (peer->number == 1) {
        if (!has_entries(peer)) ask_or_withdraw(peer, ASK);
        return !waits(peer);
    }
    if (is_declared(peer)) ask_or_withdraw(peer, WITHDRAW); /* the victim gives up, .. */
    if (leaves(peer) && owes(peer)) reply(peer);            /* .. and grants what it holds */
    else if (owes(peer) && !waits(peer)) ask_or_withdraw(peer, ASK);
    return has_entries(peer) && !owes(peer) && !waits(peer) && !leaves(peer);
}

/* ---- the link */

/* Site 1 listens, and site 2 dials until it is there. */
static void dial(struct peer *peer)
{
    struct sockaddr_un at = {.sun_family = AF_UNIX};
    const struct timespec pause = {.tv_nsec = 10 * 1000 * 1000};

    snprintf(at.sun_path, sizeof at.sun_path, "%s/link", peer->folder);
    if (peer->number == 1) {
        if (peer->listener < 0) {
            unlink(at.sun_path);
            peer->listener = socket(AF_UNIX, SOCK_STREAM, 0);
            if (bind(peer->listener, (struct sockaddr *)&at, sizeof at) || listen(peer->listener, 1)) fail(at.sun_path);
        }
        peer->link = accept(peer->listener, NULL, NULL);
        if (peer->link < 0) fail("accept");
        return;
    }
    for (;;) {
        peer->link = socket(AF_UNIX, SOCK_STREAM, 0);
        if (!connect(peer->link, (struct sockaddr *)&at, sizeof at)) return;
        close(peer->link);
        nanosleep(&pause, NULL);
    }
}

/* Each site tells what it has got, and is sent what it lacks. */
static bool resume(struct peer *peer)
{
    size_t len, count = 0;
    uint8_t *journal = contents(peer->path, &len), *lacks = NULL, told[16];
    uint64_t got, mark;
    cmh_code code;
    bool goes_on;

    expect("got", cmh_journal3_got(journal, len, peer->other, &got, &mark));
    put(told, got, 8);
    put(told + 8, mark, 8);
    goes_on = write_all(peer->link, told, sizeof told) && read_all(peer->link, told, sizeof told);
    if (goes_on) {
        do {
            free(lacks);
            lacks = malloc(count + 1);
            if (!lacks) fail("memory");
            code = cmh_journal3_sent(journal, len, peer->other, number_at(told), number_at(told + 8), lacks, count, &count);
        } while (code == CMH_SHORT);
        expect("sent", code);
        goes_on = write_all(peer->link, lacks, count);
    }
    free(lacks);
    free(journal);
    return goes_on;
}

/* Takes the next message of the other site; not where the connection has ended. */
static bool receive(struct peer *peer)
{
    uint8_t event[3 + CMH_MESSAGE_MAX] = {4};
    size_t len;

    put(event + 1, peer->other, 2);
    if (!read_all(peer->link, event + 3, 1)) return false;
    len = event[3] == 3 ? 23 : 13;
    if (!read_all(peer->link, event + 4, len - 1)) return false;
    take(peer, event, 3 + len);
    return true;
}

static int run(const char *folder, uint16_t number, unsigned dies_at)
{
    struct peer peer = {.number = number, .other = (uint16_t)(SITES + 1 - number), .listener = -1, .dies_at = dies_at};
    bool is_done = false;

    signal(SIGPIPE, SIG_IGN);
    snprintf(peer.folder, sizeof peer.folder, "%s", folder);
    snprintf(peer.path, sizeof peer.path, "%s/%s", folder, number == 1 ? "one.cmhj" : "two.cmhj");
    if (access(peer.path, F_OK)) begin(&peer);
    else open_again(&peer);
    peer.journal = open(peer.path, O_WRONLY | O_APPEND);
    if (peer.journal < 0) fail(peer.path);
    while (!is_done) {
        dial(&peer);
        if (resume(&peer)) is_done = act(&peer);
        while (!is_done && receive(&peer)) is_done = act(&peer);
        close(peer.link); /* the other site was killed, and comes again; or all is done */
    }
    cmh_site3_free(&peer.site);
    return 0;
}

/* ---- both sites */

static pid_t start(const char *folder, uint16_t number, unsigned dies_at)
{
    pid_t child;
    fflush(stdout);
    child = fork();
    if (child < 0) fail("fork");
    if (child == 0) exit(run(folder, number, dies_at));
    return child;
}

static void print_link(const char *folder, uint16_t from, uint16_t to)
{
    char path[2 * PATH];
    size_t sent_len, got_len, count;
    uint8_t *sent, *got;
    uint64_t messages, mark;

    snprintf(path, sizeof path, "%s/%s", folder, from == 1 ? "one.cmhj" : "two.cmhj");
    sent = contents(path, &sent_len);
    snprintf(path, sizeof path, "%s/%s", folder, to == 1 ? "one.cmhj" : "two.cmhj");
    got = contents(path, &got_len);
    expect("got", cmh_journal3_got(got, got_len, from, &messages, &mark));
    expect("sent", cmh_journal3_sent(sent, sent_len, to, messages, mark, (uint8_t *)path, sizeof path, &count));
    printf("site %u got %u messages of site %u, and lacks %u bytes\n", to, (unsigned)messages, from, (unsigned)count);
    free(sent);
    free(got);
}

int main(int count, char **words)
{
    pid_t sites[SITES];
    int status;

    if (count != 2 || strlen(words[1]) >= PATH) {
        fprintf(stderr, "two_sites3 FOLDER, of fewer than %d bytes\n", PATH);
        return 2;
    }
    sites[0] = start(words[1], 1, 3);
    sites[1] = start(words[1], 2, 2);
    for (int place = 1; place >= 0; place--) {
        if (waitpid(sites[place], &status, 0) < 0 || !WIFSIGNALED(status)) return 1;
        printf("site %d was killed\n", place + 1);
        sites[place] = start(words[1], (uint16_t)(place + 1), 0);
    }
    for (int place = 0; place < SITES; place++)
        if (waitpid(sites[place], &status, 0) < 0 || status != 0) return 1;
    print_link(words[1], 1, 2);
    print_link(words[1], 2, 1);
    return 0;
}
