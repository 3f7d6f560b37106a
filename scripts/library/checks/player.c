/* Plays a script over the library and answers as `cmh play` does. The lines are those of docs/formats.md, each well formed.
 *
 *   player [FOLDER] < SCRIPT      at the end the journals stand in FOLDER/site-N.cmhj
 */
#define _POSIX_C_SOURCE 200809L
#include "spell.h"

enum { NUMBERS = 10000, SITES = 64, WORDS = 64, EVENT = 4 + 2 * 255 };

struct bytes {
    uint8_t *at;
    size_t len, room;
};

struct peer {
    unsigned number;
    cmh_site site;
    struct bytes journal;
};

struct link {
    struct bytes frames;
    size_t taken;
    bool is_closed;
};

static uint8_t edition = 1;
static uint16_t rows[SITES * 2 + 1024 + 64];
static size_t rows_len;
static bool has_begun;
static struct peer peers[SITES];
static size_t peers_len;
static struct peer *home[NUMBERS];
static struct link links[SITES][SITES];

static void add(struct bytes *to, const uint8_t *from, size_t len)
{
    if (to->len + len > to->room) {
        to->room = 2 * (to->len + len) + 64;
        to->at = realloc(to->at, to->room);
        EXPECT(to->at);
    }
    memcpy(to->at + to->len, from, len);
    to->len += len;
}

static struct peer *peer_of(unsigned site)
{
    for (size_t i = 0; i < peers_len; i++)
        if (peers[i].number == site) return &peers[i];
    return NULL;
}

/* A row is one of the topology's, if the topology takes it. */
static void row(const unsigned *numbers, size_t count)
{
    cmh_site trial = {0};
    size_t from = rows_len;
    cmh_code code;
    if (has_begun) {
        puts("late");
        return;
    }
    rows[rows_len++] = (uint16_t)numbers[0];
    rows[rows_len++] = (uint16_t)(count - 1);
    for (size_t i = 1; i < count; i++) rows[rows_len++] = (uint16_t)numbers[i];
    code = cmh_site_new(&trial, edition, rows, rows_len, (uint16_t)numbers[0]);
    cmh_site_free(&trial);
    if (code == CMH_OK) {
        puts("ok");
    } else {
        EXPECT(code > 30 && code < 35);
        printf("topology %u\n", code - 30);
        rows_len = from;
    }
}

static void begin(void)
{
    if (has_begun) return;
    has_begun = true;
    for (size_t at = 0; at < rows_len; at += 2 + rows[at + 1]) {
        struct peer *peer = &peers[peers_len++];
        uint8_t header[CMH_HEADER_LEN];
        peer->number = rows[at];
        EXPECT(cmh_site_new(&peer->site, edition, rows, rows_len, rows[at]) == CMH_OK);
        EXPECT(cmh_site_header(&peer->site, header, sizeof header) == CMH_OK);
        add(&peer->journal, header, sizeof header);
        for (size_t i = 0; i < rows[at + 1]; i++) home[rows[at + 2 + i]] = peer;
    }
}

/* Takes an event; answers whether the site took it. */
static bool take(struct peer *peer, const uint8_t *event, size_t len, const char *before)
{
    uint8_t entry[CMH_ENTRY_MAX];
    size_t count, place = 0;
    uint16_t declared;
    cmh_sending sending;
    cmh_code code = cmh_site_step(&peer->site, event, len, entry, sizeof entry, &count);
    if (code) {
        printf("refused %u\n", code);
        return false;
    }
    add(&peer->journal, entry, count);
    while ((code = cmh_entry_sending(edition, entry, count, place, &sending)) == CMH_OK) {
        struct link *link = &links[peer - peers][peer_of(sending.to) - peers];
        if (!link->is_closed) add(&link->frames, entry + sending.offset, sending.len);
        place++;
    }
    EXPECT(code == CMH_NO_SENDING);
    printf("%s sent %zu", before, place);
    EXPECT(cmh_entry_declared(edition, entry, count, &declared) == CMH_OK);
    if (declared) printf(" declared %u", declared);
    puts("");
    return true;
}

static void event_of(const char *kind, const unsigned *numbers, size_t count)
{
    uint8_t event[EVENT];
    uint16_t holders[WORDS];
    size_t len;
    struct peer *peer = home[numbers[0]];
    if (!peer) {
        puts("refused 1");
        return;
    }
    for (size_t i = 1; i < count; i++) holders[i - 1] = (uint16_t)numbers[i];
    if (kind[0] == 'a')
        len = spell_ask(event, numbers[0], count - 1, holders);
    else if (kind[0] == 'r')
        len = spell_reply(event, numbers[0], numbers[1]);
    else
        len = spell_start(event, numbers[0]);
    take(peer, event, len, "ok");
}

static struct link *link_of(unsigned from, unsigned to)
{
    struct peer *a = peer_of(from), *b = peer_of(to);
    return a && b && a != b ? &links[a - peers][b - peers] : NULL;
}

static void deliver(unsigned from, unsigned to)
{
    static const char *const kinds[] = {"", "request", "reply", "probe"};
    struct link *link = link_of(from, to);
    uint8_t event[EVENT];
    char before[64];
    size_t at;
    const uint8_t *frame;
    if (!link || link->is_closed || link->taken == link->frames.len) {
        puts(!link ? "bad link" : link->is_closed ? "closed" : "empty");
        return;
    }
    frame = link->frames.at + link->taken;
    at = (size_t)sprintf(before, "got %s", kinds[frame[0]]);
    for (size_t i = 1; i < frame_len(frame); i += 2) at += (size_t)sprintf(before + at, " %u", frame[i] << 8 | frame[i + 1]);
    if (take(peer_of(to), event, spell_got(event, from, frame), before)) link->taken += frame_len(frame);
}

static void cut(unsigned from, unsigned to)
{
    struct link *link = link_of(from, to);
    size_t lost = 0;
    if (!link || link->is_closed) {
        puts(link ? "closed" : "bad link");
        return;
    }
    for (size_t at = link->taken; at < link->frames.len; at += frame_len(link->frames.at + at)) lost++;
    link->is_closed = true;
    printf("ok lost %zu\n", lost);
}

/* The audit of all journals, with a topology file of the rows. */
static void report(void)
{
    char json[1 << 16];
    struct bytes files = {0};
    size_t lens[SITES], at = (size_t)sprintf(json, "{\"edition\":%u,\"sites\":[", edition), count = 0;
    uint8_t *text = NULL, status;
    cmh_code code;
    for (size_t row = 0; row < rows_len; row += 2 + rows[row + 1]) {
        at += (size_t)sprintf(json + at, "%s{\"site\":%u,\"processes\":[", row ? "," : "", rows[row]);
        for (size_t i = 0; i < rows[row + 1]; i++) at += (size_t)sprintf(json + at, "%s%u", i ? "," : "", rows[row + 2 + i]);
        at += (size_t)sprintf(json + at, "]}");
    }
    at += (size_t)sprintf(json + at, "]}");
    for (size_t i = 0; i < peers_len; i++) {
        add(&files, peers[i].journal.at, peers[i].journal.len);
        lens[i] = peers[i].journal.len;
    }
    add(&files, (const uint8_t *)"", 0);
    text = malloc(1);
    code = cmh_audit((const uint8_t *)json, at, files.at, files.len, lens, peers_len, text, 1, &count, &status);
    if (code == CMH_SHORT) {
        text = realloc(text, count);
        code = cmh_audit((const uint8_t *)json, at, files.at, files.len, lens, peers_len, text, count, &count, &status);
    }
    EXPECT(code == CMH_OK && status < 3);
    fwrite(text, 1, count, stdout);
    free(text);
    free(files.at);
}

static void play(char *line)
{
    unsigned numbers[WORDS];
    size_t count = 0;
    char *kind = strtok(line, " \n");
    if (!kind || kind[0] == '#') return;
    for (char *word; (word = strtok(NULL, " \n"));) numbers[count++] = (unsigned)atoi(word);
    if (strcmp(kind, "edition") == 0) {
        edition = (uint8_t)numbers[0];
        puts("ok");
        return;
    }
    if (strcmp(kind, "site") == 0) {
        row(numbers, count);
        return;
    }
    begin();
    if (strcmp(kind, "deliver") == 0)
        deliver(numbers[0], numbers[1]);
    else if (strcmp(kind, "cut") == 0)
        cut(numbers[0], numbers[1]);
    else if (strcmp(kind, "report") == 0)
        report();
    else
        event_of(kind, numbers, count);
}

static void keep(const char *folder, const struct peer *peer)
{
    char path[4096];
    FILE *file;
    snprintf(path, sizeof path, "%s/site-%u.cmhj", folder, peer->number);
    file = fopen(path, "wb");
    EXPECT(file && fwrite(peer->journal.at, 1, peer->journal.len, file) == peer->journal.len && fclose(file) == 0);
}

int main(int count, char **words)
{
    char line[1026];
    while (fgets(line, sizeof line, stdin)) play(line);
    begin();
    for (size_t i = 0; i < peers_len; i++) {
        if (count > 1) keep(words[1], &peers[i]);
        cmh_site_free(&peers[i].site);
        free(peers[i].journal.at);
        for (size_t j = 0; j < peers_len; j++) free(links[i][j].frames.at);
    }
    return 0;
}
