/* Takes N steps, with all that a site does, for valgrind to look at:   leaks N */
#include "spell.h"

enum { ROOM = 256 };

static const uint16_t rows[] = {1, 1, 1, 2, 1, 2};
static unsigned long steps, steps3; /* of editions 1 and 2, and of edition 3 */

static void take(cmh_site *site, const uint8_t *event, size_t len, uint8_t *out, size_t *count)
{
    EXPECT(cmh_site_step(site, event, len, out, ROOM, count) == CMH_OK);
    steps++;
}

/* One asks, the other grants; in between a computation starts, a refused event and one that is dropped. */
static void turn(cmh_site *one, cmh_site *two)
{
    static const uint8_t request[] = {1, 0, 1, 0, 2}, reply[] = {2, 0, 2, 0, 1};
    uint8_t event[64], out[ROOM];
    uint16_t holder = 2, processes[64];
    size_t count;
    take(one, event, spell_ask(event, 1, 1, &holder), out, &count);
    EXPECT(cmh_site_step(one, event, spell_ask(event, 1, 1, &holder), out, ROOM, &count) == CMH_BLOCKED);
    EXPECT(cmh_site_step(one, event, spell_start(event, 1), out, 4, &count) == CMH_SHORT);
    take(two, event, spell_got(event, 1, request), out, &count);
    take(one, event, spell_start(event, 1), out, &count);
    EXPECT(cmh_site_prepare(two, event, spell_reply(event, 2, 1), out, ROOM, &count) == CMH_OK);
    EXPECT(cmh_site_drop(two) == CMH_OK);
    EXPECT(cmh_site_owed(two, 2, processes, 64, &count) == CMH_OK && count == 1);
    take(two, event, spell_reply(event, 2, 1), out, &count);
    take(one, event, spell_got(event, 2, reply), out, &count);
    EXPECT(cmh_site_waits(one, 1, processes, 64, &count) == CMH_OK && count == 0);
}

/* ---- edition 3 */

static void take3(cmh_site3 *site, const uint8_t *event, size_t len, uint8_t *out, size_t *count)
{
    EXPECT(cmh_site3_step(site, event, len, out, ROOM, count) == CMH_OK);
    steps3++;
}

/* Brings the messages of an entry to the other site, whose last entry stands in its place. */
static void carry(cmh_site3 *to, unsigned from, uint8_t *entry, size_t *count)
{
    uint8_t event[64], messages[4][CMH_MESSAGE_MAX];
    cmh_sending sent[4];
    size_t sendings;
    EXPECT(cmh_entry3_sendings(entry, *count, sent, 4, &sendings) == CMH_OK);
    for (size_t i = 0; i < sendings; i++) memcpy(messages[i], entry + sent[i].offset, sent[i].len);
    for (size_t i = 0; i < sendings; i++) take3(to, event, spell_message(event, from, messages[i], sent[i].len), entry, count);
}

/* One asks and withdraws; in between an event that is refused, one that is too long, and one that is dropped. */
static void turn3(cmh_site3 *one, cmh_site3 *two)
{
    uint8_t event[64], out[ROOM];
    uint16_t holder = 2, processes[64];
    size_t count, len;
    take3(one, event, spell_ask(event, 1, 1, &holder), out, &len);
    carry(two, 1, out, &len);
    EXPECT(cmh_site3_step(one, event, spell_ask(event, 1, 1, &holder), out, ROOM, &count) == CMH_ALREADY_WAITS);
    EXPECT(cmh_site3_step(one, event, spell_start(event, 1), out, 4, &count) == CMH_SHORT && count == 15 + 26);
    EXPECT(cmh_site3_prepare(two, event, spell_reply(event, 2, 1), out, ROOM, &count) == CMH_OK);
    EXPECT(cmh_site3_drop(two) == CMH_OK);
    EXPECT(cmh_site3_owed(two, 2, processes, 64, &count) == CMH_OK && count == 1);
    take3(one, event, spell_withdraw(event, 1, 1, &holder), out, &len);
    EXPECT(cmh_site3_leaving(one, 1, processes, 64, &count) == CMH_OK && count == 1);
    EXPECT(cmh_site3_declared(one, processes, 64, &count) == CMH_OK && count == 0);
    carry(two, 1, out, &len);
    carry(one, 2, out, &len);
    EXPECT(cmh_site3_leaving(one, 1, processes, 64, &count) == CMH_OK && count == 0);
}

/* A link of frames, fed in pieces of three bytes. */
static void read_link(void)
{
    cmh_reader reader = {0};
    uint8_t link[CMH_HELLO_LEN + 60], out[ROOM];
    uint16_t sender = 7;
    size_t count, all = 0;
    EXPECT(cmh_hello(1, sender, link, sizeof link) == CMH_OK);
    for (size_t at = CMH_HELLO_LEN; at < sizeof link; at += 5) memcpy(link + at, "\1\0\1\0\2", 5);
    EXPECT(cmh_reader_new(&reader, 1, &sender, 1) == CMH_OK);
    for (size_t at = 0; at < sizeof link; at += 3, all += count)
        EXPECT(cmh_reader_feed(&reader, link + at, 3, out, ROOM, &count) == CMH_OK);
    EXPECT(all == 60);
    cmh_reader_free(&reader);
}

/* The same in edition 3. */
static void run3(unsigned long wanted)
{
    static const uint8_t world[CMH_WORLD_LEN];
    cmh_site3 one = {0}, two = {0};
    uint8_t event[64], out[ROOM];
    uint16_t holder = 2;
    size_t len;
    EXPECT(cmh_site3_new(&one, world, sizeof world, rows, 6, 1) == CMH_OK);
    EXPECT(cmh_site3_new(&two, world, sizeof world, rows, 6, 2) == CMH_OK);
    for (int turns = 0; turns < 50000 && steps3 < wanted; turns++) turn3(&one, &two);
    EXPECT(cmh_site3_prepare(&one, event, spell_ask(event, 1, 1, &holder), out, ROOM, &len) == CMH_OK);
    cmh_site3_free(&one);
    cmh_site3_free(&two);
}

int main(int count, char **words)
{
    unsigned long wanted = count > 1 ? strtoul(words[1], NULL, 10) : 1000000;
    while (steps < wanted) {
        cmh_site one = {0}, two = {0};
        EXPECT(cmh_site_new(&one, 1, rows, 6, 1) == CMH_OK && cmh_site_new(&two, 1, rows, 6, 2) == CMH_OK);
        for (int turns = 0; turns < 50000 && steps < wanted; turns++) turn(&one, &two);
        {
            uint8_t event[64], out[ROOM];
            size_t len;
            uint16_t holder = 2;
            EXPECT(cmh_site_prepare(&one, event, spell_ask(event, 1, 1, &holder), out, ROOM, &len) == CMH_OK);
        }
        cmh_site_free(&one); /* with an entry that is prepared */
        cmh_site_free(&two);
        run3(wanted);
        read_link();
    }
    printf("%lu steps\n", steps);
    return 0;
}
