/* Refuses each allocation of a run in turn: the call answers CMH_NO_MEMORY and changes nothing, and made once more it
 * answers as if nothing had happened; or the answer is that already. Linked with --wrap=malloc and --wrap=realloc.
 */
#include "spell.h"

void *__real_malloc(size_t size);
void *__real_realloc(void *block, size_t size);
void *__wrap_malloc(size_t size);
void *__wrap_realloc(void *block, size_t size);

static long left = -1; /* how many more allocations succeed before the one that is refused; below 0 none is */
static bool was_refused;

static bool refuses(void)
{
    if (left < 0) return false;
    if (left-- > 0) return false;
    was_refused = true;
    return true;
}

void *__wrap_malloc(size_t size) { return refuses() ? NULL : __real_malloc(size); }
void *__wrap_realloc(void *block, size_t size) { return refuses() ? NULL : __real_realloc(block, size); }

enum { ROOM = 4096, MARK = 0xEE };

static const uint16_t words[] = {1, 2, 1, 3, 2, 1, 2};
static const char json[] = "{\"edition\":2,\"sites\":[{\"site\":1,\"processes\":[1,3]},{\"site\":2,\"processes\":[2]}]}";

static uint8_t out[ROOM], before[ROOM];
static uint16_t processes[64];
static size_t count;
static uint8_t status;
static long refusals;

/* Makes a call, which may be refused once. */
#define CALL(call) \
    do { \
        cmh_code code; \
        count = 77; \
        status = 77; \
        memset(out, MARK, sizeof out); \
        memset(processes, MARK, sizeof processes); \
        code = (call); \
        if (was_refused) { \
            refusals++; \
            was_refused = false; \
            if (code == CMH_NO_MEMORY) { \
                EXPECT(count == 77 && status == 77 && memcmp(out, before, sizeof out) == 0); \
                EXPECT(memcmp(processes, before, sizeof processes) == 0); \
                code = (call); \
            } \
        } \
        EXPECT(code == CMH_OK); \
    } while (0)

struct journal {
    uint8_t bytes[ROOM];
    size_t len;
};

static void append(struct journal *to)
{
    memcpy(to->bytes + to->len, out, count);
    to->len += count;
}

static void step(cmh_site *site, struct journal *journal, const uint8_t *event, size_t len)
{
    CALL(cmh_site_step(site, event, len, out, ROOM, &count));
    append(journal);
}

/* The run: two sites that wait for each other, in edition 2, with each call of the library. */
static void run(struct journal *one, struct journal *two, struct journal *text)
{
    cmh_site a = {0}, b = {0};
    cmh_reader reader = {0};
    uint8_t event[64], link[64], frames[64], files[2 * ROOM];
    uint16_t holder;
    size_t at = CMH_HELLO_LEN, lens[2];
    cmh_sending sending;

    one->len = two->len = text->len = 0;
    CALL(cmh_site_new(&a, 2, words, sizeof words / sizeof *words, 1));
    CALL(cmh_site_new_json(&b, (const uint8_t *)json, sizeof json - 1, 2));
    CALL(cmh_site_header(&a, one->bytes, ROOM));
    CALL(cmh_site_header(&b, two->bytes, ROOM));
    one->len = two->len = CMH_HEADER_LEN;

    /* process 1 asks for what 2 holds, over a link that comes in two pieces */
    holder = 2;
    step(&a, one, event, spell_ask(event, 1, 1, &holder));
    CALL(cmh_hello(2, 1, link, sizeof link));
    for (size_t k = 0; cmh_entry_sending(2, one->bytes + CMH_HEADER_LEN, one->len - CMH_HEADER_LEN, k, &sending) == CMH_OK; k++) {
        memcpy(link + at, one->bytes + CMH_HEADER_LEN + sending.offset, sending.len);
        at += sending.len;
    }
    EXPECT(at == CMH_HELLO_LEN + 5 + 7);
    holder = 1;
    CALL(cmh_reader_new(&reader, 2, &holder, 1));
    CALL(cmh_reader_feed(&reader, link, 9, out, ROOM, &count));
    EXPECT(count == 0);
    CALL(cmh_reader_feed(&reader, link + 9, at - 9, out, ROOM, &count));
    EXPECT(count == 12 && cmh_reader_sender(&reader) == 1);
    memcpy(frames, out, count);
    step(&b, two, event, spell_got(event, 1, frames));
    step(&b, two, event, spell_got(event, 1, frames + 5));

    /* process 2 asks for what 1 holds: prepared, dropped, and prepared again */
    CALL(cmh_site_prepare(&b, event, spell_ask(event, 2, 1, &holder), out, ROOM, &count));
    EXPECT(cmh_site_drop(&b) == CMH_OK);
    CALL(cmh_site_prepare(&b, event, spell_ask(event, 2, 1, &holder), out, ROOM, &count));
    EXPECT(cmh_site_keep(&b) == CMH_OK);
    append(two);
    CALL(cmh_site_waits(&b, 2, processes, 64, &count));
    EXPECT(count == 1 && processes[0] == 1);
    CALL(cmh_site_owed(&b, 2, processes, 64, &count));
    EXPECT(count == 1 && processes[0] == 1);

    /* its request and its probe come to site 1, which passes the probe on */
    {
        const uint8_t request[] = {1, 0, 2, 0, 1}, probe[] = {3, 0, 2, 0, 2, 0, 1};
        step(&a, one, event, spell_got(event, 2, request));
        step(&a, one, event, spell_got(event, 2, probe));
    }
    CALL(cmh_site_declared(&a, processes, 64, &count));

    lens[0] = one->len;
    lens[1] = two->len;
    memcpy(files, one->bytes, lens[0]);
    memcpy(files + lens[0], two->bytes, lens[1]);
    CALL(cmh_audit((const uint8_t *)json, sizeof json - 1, files, lens[0] + lens[1], lens, 2, out, ROOM, &count, &status));
    append(text);
    cmh_reader_free(&reader);
    cmh_site_free(&a);
    cmh_site_free(&b);
}

/* ---- edition 3 */

enum { FEW = 4 };

/* The last entry, and what it sends. */
static uint8_t entry[ROOM], messages[FEW][CMH_MESSAGE_MAX];
static size_t entry_len;
static cmh_sending sent[FEW];

static void keep_entry(struct journal *journal)
{
    append(journal);
    memcpy(entry, out, count);
    entry_len = count;
}

static void take3(cmh_site3 *site, struct journal *journal, const uint8_t *event, size_t len)
{
    CALL(cmh_site3_step(site, event, len, out, ROOM, &count));
    keep_entry(journal);
}

/* Brings the messages of the last entry to the other site. */
static void carry(cmh_site3 *to, struct journal *journal, unsigned from, size_t wanted)
{
    uint8_t event[64];
    CALL(cmh_entry3_sendings(entry, entry_len, sent, FEW, &count));
    EXPECT(count == wanted);
    for (size_t i = 0; i < wanted; i++) memcpy(messages[i], entry + sent[i].offset, sent[i].len);
    for (size_t i = 0; i < wanted; i++) take3(to, journal, event, spell_message(event, from, messages[i], sent[i].len));
}

/* The run: two sites that wait for each other; the one that is declared withdraws, and grants what it owes. */
static void run3(struct journal *one, struct journal *two, struct journal *text)
{
    static const uint16_t rows[] = {1, 2, 1, 3, 2, 1, 2};
    static const uint8_t world[CMH_WORLD_LEN];
    cmh_site3 a = {0}, b = {0}, again = {0};
    uint8_t event[64];
    uint16_t holder = 2, declared = 77;
    uint64_t stamp = 77, place = 77, got, mark;

    one->len = two->len = text->len = 0;
    CALL(cmh_site3_new(&a, world, sizeof world, rows, sizeof rows / sizeof *rows, 1));
    CALL(cmh_site3_new(&b, world, sizeof world, rows, sizeof rows / sizeof *rows, 2));
    CALL(cmh_site3_head(&a, one->bytes, ROOM));
    CALL(cmh_site3_head(&b, two->bytes, ROOM));
    one->len = two->len = CMH_SITE3_HEAD_LEN;

    take3(&a, one, event, spell_ask(event, 1, 1, &holder));
    carry(&b, two, 1, 2);
    holder = 1;
    take3(&b, two, event, spell_ask(event, 2, 1, &holder));
    carry(&a, one, 2, 2);
    carry(&b, two, 1, 1);
    CALL(cmh_entry3_declared(entry, entry_len, &declared, &stamp));
    EXPECT(declared == 2 && stamp == 2);
    CALL(cmh_site3_declared(&b, processes, 64, &count));
    EXPECT(count == 1 && processes[0] == 2);

    CALL(cmh_site3_prepare(&b, event, spell_withdraw(event, 2, 1, &holder), out, ROOM, &count));
    EXPECT(cmh_site3_drop(&b) == CMH_OK);
    CALL(cmh_site3_waits(&b, 2, processes, 64, &count));
    EXPECT(count == 1 && processes[0] == 1);
    CALL(cmh_site3_prepare(&b, event, spell_withdraw(event, 2, 1, &holder), out, ROOM, &count));
    EXPECT(cmh_site3_keep(&b) == CMH_OK);
    keep_entry(two);
    CALL(cmh_site3_leaving(&b, 2, processes, 64, &count));
    EXPECT(count == 1 && processes[0] == 1);
    carry(&a, one, 2, 1);
    carry(&b, two, 1, 1);

    CALL(cmh_site3_owed(&b, 2, processes, 64, &count));
    EXPECT(count == 1 && processes[0] == 1);
    take3(&b, two, event, spell_reply(event, 2, 1));
    carry(&a, one, 2, 1);
    CALL(cmh_site3_waits(&a, 1, processes, 64, &count));
    EXPECT(count == 0);

    /* site 2 starts again, and the link to it goes on: nothing is left to send */
    CALL(cmh_site3_open(&again, world, sizeof world, rows, sizeof rows / sizeof *rows, 2, two->bytes, two->len, &place));
    EXPECT(place == two->len);
    CALL(cmh_site3_owed(&again, 2, processes, 64, &count));
    EXPECT(count == 0);
    CALL(cmh_journal3_got(two->bytes, two->len, 1, &got, &mark));
    EXPECT(got == 4);
    CALL(cmh_journal3_sent(one->bytes, one->len, 2, got, mark, out, ROOM, &count));
    EXPECT(count == 0);
    cmh_site3_free(&again);
    cmh_site3_free(&a);
    cmh_site3_free(&b);
}

/* Refuses each allocation of a run in turn. */
static void refuse_each(void (*run)(struct journal *, struct journal *, struct journal *))
{
    static struct journal whole[3], now[3];
    long at_first = refusals;
    memset(whole, 0, sizeof whole);
    memset(now, 0, sizeof now);
    left = -1;
    run(&whole[0], &whole[1], &whole[2]);
    for (long n = 0;; n++) {
        long so_far = refusals;
        left = n;
        run(&now[0], &now[1], &now[2]);
        if (refusals == so_far && left >= 0) break; /* the run asks for less memory than that */
        EXPECT(refusals == so_far + 1);
        EXPECT(memcmp(whole, now, sizeof now) == 0);
    }
    EXPECT(refusals > at_first);
}

int main(void)
{
    memset(before, MARK, sizeof before);
    refuse_each(run);
    refuse_each(run3);
    printf("%ld allocations refused in turn\n", refusals);
    return 0;
}
