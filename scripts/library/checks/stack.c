/* How much stack each call takes: the stack below is painted, the call is made, and what is left of the paint is counted.
 * A call that reads JSON may take 24 KB, and 64 KB where it nests as deep as JSON may; any other 16 KB.
 */
#include "spell.h"

enum { DEPTH = 1 << 20, PAINT = 0xA5, MOST = 16384, MOST_FOR_JSON = 24576, MOST_FOR_NESTED = 65536 };

/* How deep JSON may nest, how many processes a site may have, and how many an ask may name. */
enum { LEVELS = 127, MEMBERS = 64, TARGETS = 32, MEMBERS3 = 256, TARGETS3 = 255 };

static __attribute__((noinline)) void paint(void)
{
    volatile uint8_t below[DEPTH];
    for (size_t i = 0; i < DEPTH; i++) below[i] = PAINT;
    (void)below[0];
}

static __attribute__((noinline)) size_t used(void)
{
    volatile uint8_t below[DEPTH];
    size_t left = 0;
    __asm__ volatile("" : : "r"(below) : "memory"); /* what the call left there is read */
    while (left < DEPTH && below[left] == PAINT) left++;
    return DEPTH - left;
}

static int exceeded;

#define MEASURE(name, most, call) \
    do { \
        size_t size; \
        paint(); \
        call; \
        size = used(); \
        if (size > most) exceeded = 1; \
        printf("%-14s %zu\n", name, size); \
    } while (0)

/* A topology of two sites; the second of `nested` has a member that nests as deep as JSON may, with a number at its end
 * that takes long to read. */
static const char plain[] = "{\"edition\":1,\"sites\":[{\"site\":1,\"processes\":[1]},{\"site\":2,\"processes\":[2]}]}";
static const char number[] = "0.1000000000000000055511151231257827021181583404541015625";
static char nested[sizeof plain + sizeof number + 2 * LEVELS + 16];

static void nest(void)
{
    enum { ABOVE = 3, LEFT = LEVELS - ABOVE };
    char *at = nested + sprintf(nested, "%.*s,\"x\":", (int)(sizeof plain - 4), plain);
    memset(at, '[', LEFT);
    at += LEFT;
    at += sprintf(at, "%s", number);
    memset(at, ']', LEFT);
    strcpy(at + LEFT, "}]}");
}

/* A site of as many processes as one may have: each waits for as many as it may, and is waited for by as many. */
static void fullest(void)
{
    static uint8_t journal[MEMBERS * CMH_ENTRY_MAX], told[65536];
    uint16_t rows[2 + MEMBERS] = {1, MEMBERS}, holders[TARGETS], processes[MEMBERS];
    char json[512];
    uint8_t event[4 + 2 * TARGETS], status;
    size_t count, kept = CMH_HEADER_LEN, len;
    cmh_site site = {0};
    for (unsigned i = 0; i < MEMBERS; i++) rows[2 + i] = (uint16_t)(1 + i);
    MEASURE("new, 64", MOST, EXPECT(cmh_site_new(&site, 2, rows, 2 + MEMBERS, 1) == CMH_OK));
    EXPECT(cmh_site_header(&site, journal, sizeof journal) == CMH_OK);
    for (unsigned asker = 1; asker <= MEMBERS; asker++) {
        for (unsigned i = 0; i < TARGETS; i++) holders[i] = (uint16_t)(1 + i + (asker <= TARGETS ? TARGETS : 0));
        len = spell_ask(event, asker, TARGETS, holders);
        MEASURE("ask for 32", MOST, EXPECT(cmh_site_step(&site, event, len, journal + kept, CMH_ENTRY_MAX, &count) == CMH_OK));
        kept += count;
    }
    MEASURE("waits, 32", MOST, EXPECT(cmh_site_waits(&site, 1, processes, MEMBERS, &count) == CMH_OK && count == TARGETS));
    MEASURE("owed, 32", MOST, EXPECT(cmh_site_owed(&site, 1, processes, MEMBERS, &count) == CMH_OK && count == TARGETS));
    MEASURE("declared", MOST, EXPECT(cmh_site_declared(&site, processes, MEMBERS, &count) == CMH_OK && count > 0));
    MEASURE("free, 64", MOST, cmh_site_free(&site));
    len = (size_t)sprintf(json, "{\"edition\":2,\"sites\":[{\"site\":1,\"processes\":[1");
    for (unsigned i = 2; i <= MEMBERS; i++) len += (size_t)sprintf(json + len, ",%u", i);
    len += (size_t)sprintf(json + len, "]}]}");
    MEASURE("audit, 64", MOST_FOR_JSON, EXPECT(cmh_audit((const uint8_t *)json, len, journal, kept, &kept, 1, told, sizeof told, &count, &status) == CMH_OK));
    EXPECT(status == 0);
}

/* The same in edition 3: 255 processes that each wait for 255 others at another site, and one that asks for all of them. */
static void fullest3(void)
{
    static const uint8_t world[CMH_WORLD_LEN];
    static uint16_t rows[4 + MEMBERS3 + TARGETS3] = {1, MEMBERS3}, processes[MEMBERS3];
    uint16_t holders[TARGETS3];
    uint8_t event[4 + 2 * TARGETS3], head[CMH_SITE3_HEAD_LEN];
    size_t room = cmh_site3_entry_max(), count, sendings, len;
    size_t kept = CMH_SITE3_HEAD_LEN, most = 16 * 1024 * 1024;
    uint8_t *entry = malloc(room), *journal = malloc(most), *messages = malloc(most);
    cmh_sending *sent = malloc(room / 16 * sizeof *sent);
    uint16_t declared;
    uint64_t stamp, place, got, mark;
    cmh_site3 site = {0}, again = {0};
    EXPECT(entry && sent && journal && messages);
    for (unsigned i = 0; i < MEMBERS3; i++) rows[2 + i] = (uint16_t)(1 + i);
    rows[2 + MEMBERS3] = 2;
    rows[3 + MEMBERS3] = TARGETS3;
    for (unsigned i = 0; i < TARGETS3; i++) rows[4 + MEMBERS3 + i] = holders[i] = (uint16_t)(1001 + i);
    MEASURE("3: new, 256", MOST, EXPECT(cmh_site3_new(&site, world, sizeof world, rows, sizeof rows / sizeof *rows, 1) == CMH_OK));
    MEASURE("3: head", MOST, EXPECT(cmh_site3_head(&site, head, sizeof head) == CMH_OK));
    memcpy(journal, head, sizeof head);
    for (unsigned asker = 2; asker <= MEMBERS3; asker++) {
        len = spell_ask(event, asker, TARGETS3, holders);
        MEASURE("3: ask for 255", MOST, EXPECT(cmh_site3_step(&site, event, len, entry, room, &count) == CMH_OK));
        EXPECT(kept + count <= most);
        memcpy(journal + kept, entry, count);
        kept += count;
    }
    MEASURE("3: open", MOST, EXPECT(cmh_site3_open(&again, world, sizeof world, rows, sizeof rows / sizeof *rows, 1, journal, kept, &place) == CMH_OK));
    EXPECT(place == kept);
    cmh_site3_free(&again);
    MEASURE("3: got", MOST, EXPECT(cmh_journal3_got(journal, kept, 2, &got, &mark) == CMH_OK && got == 0));
    MEASURE("3: sent", MOST, EXPECT(cmh_journal3_sent(journal, kept, 2, got, mark, messages, most, &count) == CMH_OK && count > 0));
    for (unsigned i = 0; i < TARGETS3; i++) holders[i] = (uint16_t)(2 + i);
    len = spell_ask(event, 1, TARGETS3, holders);
    MEASURE("3: prepare", MOST, EXPECT(cmh_site3_prepare(&site, event, len, entry, room, &count) == CMH_OK));
    MEASURE("3: drop", MOST, EXPECT(cmh_site3_drop(&site) == CMH_OK));
    MEASURE("3: short", MOST, EXPECT(cmh_site3_prepare(&site, event, len, entry, 9, &count) == CMH_SHORT));
    MEASURE("3: step", MOST, EXPECT(cmh_site3_step(&site, event, len, entry, room, &count) == CMH_OK));
    MEASURE("3: sendings", MOST, EXPECT(cmh_entry3_sendings(entry, count, sent, room / 16, &sendings) == CMH_OK));
    EXPECT(sendings == TARGETS3 * TARGETS3);
    MEASURE("3: declared by", MOST, EXPECT(cmh_entry3_declared(entry, count, &declared, &stamp) == CMH_OK));
    MEASURE("3: waits", MOST, EXPECT(cmh_site3_waits(&site, 1, processes, MEMBERS3, &count) == CMH_OK && count == TARGETS3));
    MEASURE("3: owed", MOST, EXPECT(cmh_site3_owed(&site, 2, processes, MEMBERS3, &count) == CMH_OK && count == 1));
    len = spell_withdraw(event, 1, TARGETS3, holders);
    MEASURE("3: withdraw", MOST, EXPECT(cmh_site3_step(&site, event, len, entry, room, &count) == CMH_OK));
    MEASURE("3: leaving", MOST, EXPECT(cmh_site3_leaving(&site, 1, processes, MEMBERS3, &count) == CMH_OK && count == 0));
    MEASURE("3: declared", MOST, EXPECT(cmh_site3_declared(&site, processes, MEMBERS3, &count) == CMH_OK && count == 0));
    MEASURE("3: free", MOST, cmh_site3_free(&site));
    free(entry);
    free(sent);
    free(journal);
    free(messages);
}

int main(void)
{
    static const uint16_t rows[] = {1, 1, 1, 2, 1, 2};
    static uint8_t out[CMH_ENTRY_MAX], files[64];
    cmh_site site = {0}, other = {0};
    cmh_reader reader = {0};
    uint8_t event[64], status;
    uint16_t holder = 2, processes[64], declared;
    size_t len, count = 0, lens[2] = {CMH_HEADER_LEN, CMH_HEADER_LEN};
    cmh_sending sending;
    MEASURE("new", MOST, cmh_site_new(&site, 1, rows, 6, 1));
    MEASURE("new_json", MOST_FOR_JSON, cmh_site_new_json(&other, (const uint8_t *)plain, sizeof plain - 1, 2));
    MEASURE("header", MOST, cmh_site_header(&site, files, sizeof files));
    cmh_site_header(&other, files + CMH_HEADER_LEN, sizeof files - CMH_HEADER_LEN);
    len = spell_ask(event, 1, 1, &holder);
    MEASURE("prepare", MOST, cmh_site_prepare(&site, event, len, out, sizeof out, &count));
    MEASURE("drop", MOST, cmh_site_drop(&site));
    MEASURE("step, ask", MOST, cmh_site_step(&site, event, len, out, sizeof out, &count));
    EXPECT(count > 0);
    MEASURE("sending", MOST, cmh_entry_sending(1, out, count, 0, &sending));
    MEASURE("declared by", MOST, cmh_entry_declared(1, out, count, &declared));
    len = spell_start(event, 1);
    MEASURE("step, start", MOST, cmh_site_step(&site, event, len, out, sizeof out, &count));
    MEASURE("declared", MOST, cmh_site_declared(&site, processes, 64, &count));
    MEASURE("waits", MOST, cmh_site_waits(&site, 1, processes, 64, &count));
    MEASURE("owed", MOST, cmh_site_owed(&site, 1, processes, 64, &count));
    MEASURE("reader", MOST, cmh_reader_new(&reader, 1, &holder, 1));
    cmh_hello(1, 2, event, sizeof event);
    memcpy(event + CMH_HELLO_LEN, "\1\0\2\0\1", 5);
    MEASURE("feed", MOST, cmh_reader_feed(&reader, event, 11, out, sizeof out, &count));
    EXPECT(count == 5);
    MEASURE("audit", MOST_FOR_JSON, cmh_audit((const uint8_t *)plain, sizeof plain - 1, files, 2 * CMH_HEADER_LEN, lens, 2, out,
                                              sizeof out, &count, &status));
    EXPECT(count > 0 && status == 0);
    MEASURE("free", MOST, cmh_site_free(&site));
    cmh_site_free(&other);
    cmh_reader_free(&reader);
    fullest();
    fullest3();
    nest();
    MEASURE("new, nested", MOST_FOR_NESTED, EXPECT(cmh_site_new_json(&other, (const uint8_t *)nested, strlen(nested), 2) == CMH_OK));
    cmh_site_free(&other);
    MEASURE("audit, nested", MOST_FOR_NESTED, EXPECT(cmh_audit((const uint8_t *)nested, strlen(nested), files, 2 * CMH_HEADER_LEN, lens, 2,
                                                               out, sizeof out, &count, &status) == CMH_OK && status == 0));
    return exceeded;
}
