/* How long calls take, in nanoseconds of processor time. `starts` are starts of a process that waits, `asks` a reply to it and
 * its next ask.
 */
#define _POSIX_C_SOURCE 200809L
#include "spell.h"

#include <time.h>

enum { ROUNDS = 450000, CALLS = 5000000, HOLDER = 1000 };

typedef struct {
    size_t count, len[2];
    uint8_t bytes[2][64];
} events;

static const uint16_t rows[] = {1, 1, 1, 2, 1, HOLDER};
static const uint16_t holder = HOLDER;

static double now(void)
{
    struct timespec time;
    clock_gettime(CLOCK_PROCESS_CPUTIME_ID, &time);
    return (double)time.tv_sec * 1e9 + (double)time.tv_nsec;
}

/* A step of these events, after an ask: the least of so many runs. */
static double step(const events *again, int runs)
{
    uint8_t ask[64], out[64];
    size_t count, len = spell_ask(ask, 1, 1, &holder);
    double least = 0;
    for (int run = 0; run < runs; run++) {
        double began, took;
        cmh_site site = {0};
        EXPECT(cmh_site_new(&site, 2, rows, 6, 1) == CMH_OK);
        EXPECT(cmh_site_step(&site, ask, len, out, sizeof out, &count) == CMH_OK);
        began = now();
        for (int round = 0; round < ROUNDS; round++)
            for (size_t i = 0; i < again->count; i++)
                EXPECT(cmh_site_step(&site, again->bytes[i], again->len[i], out, sizeof out, &count) == CMH_OK);
        took = (now() - began) / ((double)ROUNDS * (double)again->count);
        if (run == 0 || took < least) least = took;
        cmh_site_free(&site);
    }
    return least;
}

/* A call that is answered this. */
static double call(cmh_site *site, cmh_code wanted)
{
    uint8_t start[64], out[64];
    size_t count, len = spell_start(start, 1);
    double began = now();
    for (int i = 0; i < CALLS; i++) EXPECT(cmh_site_step(site, start, len, out, sizeof out, &count) == wanted);
    return (now() - began) / CALLS;
}

int main(int words, char **word)
{
    static const uint8_t reply[] = {2, HOLDER >> 8, HOLDER & 255, 0, 1};
    int runs = words > 1 ? atoi(word[1]) : 5;
    events starts = {0}, asks = {0};
    cmh_site site = {0};
    double began;
    starts.count = 1;
    starts.len[0] = spell_start(starts.bytes[0], 1);
    asks.count = 2;
    asks.len[0] = spell_got(asks.bytes[0], 2, reply);
    asks.len[1] = spell_ask(asks.bytes[1], 1, 1, &holder);
    printf("starts %.1f\n", step(&starts, runs));
    printf("asks %.1f\n", step(&asks, runs));
    began = now();
    EXPECT(cmh_site_new(&site, 2, rows, 6, 1) == CMH_OK);
    printf("new %.0f\n", now() - began);
    printf("refused %.1f\n", call(&site, CMH_NOT_BLOCKED));
    cmh_site_free(&site);
    printf("closed %.1f\n", call(&site, CMH_CLOSED));
    return 0;
}
