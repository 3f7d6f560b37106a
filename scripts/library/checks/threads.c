/* Sixty-four sites in as many threads, at once.
 *
 *   threads FOLDER ROUNDS      leaves FOLDER/site-N.cmhj and FOLDER/script, the same run as a script of `cmh play`
 *
 * In each round every thread takes some events of its own processes, and then the frames that came to its site before. A
 * site's journal rests on its own events and on the order of each link alone, so that the script may have the sites of a
 * round one after the other.
 */
#define _POSIX_C_SOURCE 200809L
#include "spell.h"

#include <pthread.h>

enum { SITES = 64, MEMBERS = 16, EVENTS = 3, EDITION = 2, EVENT = 80, ROW = 2 + MEMBERS };

struct bytes {
    uint8_t *at;
    size_t len, room;
};

/* What one site sent to another: what is read in this round, and what was sent since. */
struct link {
    struct bytes now, next;
};

struct peer {
    unsigned place;
    uint32_t seed;
    struct bytes journal, script;
};

static uint16_t rows[SITES * ROW];
static struct link links[SITES][SITES];
static struct peer peers[SITES];
static pthread_barrier_t barrier;
static int rounds;

static void add(struct bytes *to, const void *from, size_t len)
{
    if (to->len + len > to->room) {
        to->room = 2 * (to->len + len) + 64;
        to->at = realloc(to->at, to->room);
        EXPECT(to->at);
    }
    memcpy(to->at + to->len, from, len);
    to->len += len;
}

static void note(struct peer *peer, const char *line) { add(&peer->script, line, strlen(line)); }

static unsigned below(struct peer *peer, unsigned count)
{
    peer->seed = peer->seed * 1664525u + 1013904223u;
    return (peer->seed >> 8) % count;
}

static unsigned process_of(unsigned place, unsigned member) { return 1 + place * MEMBERS + member; }

/* Takes an event, keeps its entry, and puts its frames on their links. */
static bool take(struct peer *peer, cmh_site *site, const uint8_t *event, size_t len)
{
    uint8_t entry[CMH_ENTRY_MAX];
    size_t count, place = 0;
    cmh_sending sending;
    cmh_code code = cmh_site_step(site, event, len, entry, sizeof entry, &count);
    if (code) {
        EXPECT(code < CMH_UNLAWFUL || code == CMH_NO_SPELLING);
        return false;
    }
    add(&peer->journal, entry, count);
    for (; cmh_entry_sending(EDITION, entry, count, place, &sending) == CMH_OK; place++)
        add(&links[peer->place][sending.to - 1].next, entry + sending.offset, sending.len);
    return true;
}

/* A process that is active grants what it owes, or asks for what one or two others hold. */
static void act(struct peer *peer, cmh_site *site)
{
    uint8_t event[EVENT];
    char line[128];
    unsigned process = process_of(peer->place, below(peer, MEMBERS)), first, second;
    uint16_t owed[SITES * MEMBERS], holders[2];
    size_t count, waits;
    EXPECT(cmh_site_waits(site, (uint16_t)process, owed, SITES * MEMBERS, &waits) == CMH_OK);
    EXPECT(cmh_site_owed(site, (uint16_t)process, owed, SITES * MEMBERS, &count) == CMH_OK);
    if (waits > 0) {
        sprintf(line, "start %u\n", process);
        take(peer, site, event, spell_start(event, process));
    } else if (count > 0 && below(peer, 4) > 0) {
        first = owed[below(peer, (unsigned)count)];
        sprintf(line, "reply %u %u\n", process, first);
        EXPECT(take(peer, site, event, spell_reply(event, process, first)));
    } else {
        first = process_of(below(peer, SITES), below(peer, MEMBERS));
        second = process_of(below(peer, SITES), below(peer, MEMBERS));
        holders[0] = (uint16_t)(first < second ? first : second);
        holders[1] = (uint16_t)(first < second ? second : first);
        count = holders[0] == holders[1] ? 1 : 2;
        sprintf(line, count == 1 ? "ask %u %u\n" : "ask %u %u %u\n", process, holders[0], holders[1]);
        take(peer, site, event, spell_ask(event, process, count, holders));
    }
    note(peer, line);
}

/* What was sent is what is read next. No site sends meanwhile. */
static void turn(struct peer *peer)
{
    for (unsigned from = 0; from < SITES; from++) {
        struct link *link = &links[from][peer->place];
        struct bytes read = link->now;
        read.len = 0;
        link->now = link->next;
        link->next = read;
    }
}

/* Takes the frames that came to the site. */
static void receive(struct peer *peer, cmh_site *site)
{
    uint8_t event[EVENT];
    char line[64];
    for (unsigned from = 0; from < SITES; from++) {
        const struct bytes *frames = &links[from][peer->place].now;
        for (size_t at = 0; at < frames->len; at += frame_len(frames->at + at)) {
            EXPECT(take(peer, site, event, spell_got(event, from + 1, frames->at + at)));
            sprintf(line, "deliver %u %u\n", from + 1, peer->place + 1);
            note(peer, line);
        }
    }
}

static void *run(void *given)
{
    struct peer *peer = given;
    cmh_site site = {0};
    uint8_t header[CMH_HEADER_LEN];
    EXPECT(cmh_site_new(&site, EDITION, rows, SITES * ROW, (uint16_t)(peer->place + 1)) == CMH_OK);
    EXPECT(cmh_site_header(&site, header, sizeof header) == CMH_OK);
    add(&peer->journal, header, sizeof header);
    for (int round = 0; round < rounds; round++) {
        for (int i = 0; i < EVENTS; i++) act(peer, &site);
        note(peer, "#\n"); /* here the events of the round end */
        pthread_barrier_wait(&barrier);
        turn(peer);
        pthread_barrier_wait(&barrier);
        receive(peer, &site);
        note(peer, "#\n");
        pthread_barrier_wait(&barrier);
    }
    cmh_site_free(&site);
    return NULL;
}

static void write_script(const char *folder)
{
    char path[4096];
    FILE *file;
    size_t at[SITES] = {0};
    snprintf(path, sizeof path, "%s/script", folder);
    file = fopen(path, "wb");
    EXPECT(file);
    fprintf(file, "edition %d\n", EDITION);
    for (unsigned place = 0; place < SITES; place++) {
        fprintf(file, "site %u", place + 1);
        for (unsigned member = 0; member < MEMBERS; member++) fprintf(file, " %u", process_of(place, member));
        fprintf(file, "\n");
    }
    for (int half = 0; half < 2 * rounds; half++) {
        for (unsigned place = 0; place < SITES; place++) {
            const struct bytes *script = &peers[place].script;
            while (script->at[at[place]] != '#') {
                size_t end = at[place];
                while (script->at[end++] != '\n') {}
                fwrite(script->at + at[place], 1, end - at[place], file);
                at[place] = end;
            }
            at[place] += 2;
        }
    }
    EXPECT(fclose(file) == 0);
}

int main(int count, char **words)
{
    pthread_t threads[SITES];
    size_t bytes = 0;
    EXPECT(count == 3);
    rounds = atoi(words[2]);
    for (unsigned place = 0; place < SITES; place++) {
        rows[place * ROW] = (uint16_t)(place + 1);
        rows[place * ROW + 1] = MEMBERS;
        for (unsigned member = 0; member < MEMBERS; member++)
            rows[place * ROW + 2 + member] = (uint16_t)process_of(place, member);
        peers[place].place = place;
        peers[place].seed = 2 * place + 1;
    }
    EXPECT(pthread_barrier_init(&barrier, NULL, SITES) == 0);
    for (int i = 0; i < SITES; i++) EXPECT(pthread_create(&threads[i], NULL, run, &peers[i]) == 0);
    for (int i = 0; i < SITES; i++) EXPECT(pthread_join(threads[i], NULL) == 0);
    for (int i = 0; i < SITES; i++) {
        char path[4096];
        FILE *file;
        snprintf(path, sizeof path, "%s/site-%d.cmhj", words[1], i + 1);
        file = fopen(path, "wb");
        EXPECT(file && fwrite(peers[i].journal.at, 1, peers[i].journal.len, file) == peers[i].journal.len);
        EXPECT(fclose(file) == 0);
        bytes += peers[i].journal.len;
    }
    write_script(words[1]);
    printf("%d sites, %zu bytes of journals\n", SITES, bytes);
    return 0;
}
