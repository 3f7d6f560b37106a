/* How long a step takes from C, alone and with its entry in a file.
 *
 *   cc -O2 -Iinclude -Iscripts/library/checks scripts/bench/steps.c out/library/libcmh.a -o steps && ./steps FILE
 *
 * The events are an ask and its reply, in turn, at a site with one process beside a site with another (little), and at the
 * fullest site: 64 processes beside 60 sites of 16, each process of it asked by all others and known to depend on all, and
 * all but one of them waiting. `alone` is processor time, for an entry in memory; with FILE the wall time of an append and a
 * sync for each step, or for 64 steps together. Each figure is in nanoseconds a step, the least of five runs.
 */
#define _POSIX_C_SOURCE 200809L
#include "spell.h"

#include <fcntl.h>
#include <time.h>
#include <unistd.h>

enum { RUNS = 5, ROUND = 64, ASKER = 1, HOLDER = 1000, MEMBERS = 64, OTHERS = 60, EACH = 16, ROUNDS = 4000, SYNCED = 512 };

static uint16_t rows[4 * (MEMBERS + OTHERS * (EACH + 2))];
static size_t rows_len;
static const uint16_t holder = HOLDER;
static uint8_t out[CMH_ENTRY_MAX];

static double now(clockid_t clock)
{
    struct timespec time;
    clock_gettime(clock, &time);
    return (double)time.tv_sec * 1e9 + (double)time.tv_nsec;
}

static void row(unsigned site, unsigned first, unsigned count)
{
    rows[rows_len++] = (uint16_t)site;
    rows[rows_len++] = (uint16_t)count;
    for (unsigned i = 0; i < count; i++) rows[rows_len++] = (uint16_t)(first + i);
}

static size_t step(cmh_site *site, const uint8_t *event, size_t len)
{
    size_t count;
    EXPECT(cmh_site_step(site, event, len, out, sizeof out, &count) == CMH_OK);
    return count;
}

/* A frame that came from a site: of the kind 1 a request, of 3 a probe of the first process. */
static void got(cmh_site *site, unsigned from, uint8_t kind, unsigned first, unsigned second, unsigned third)
{
    uint8_t frame[7] = {kind}, event[16];
    put(frame + 1, first);
    put(frame + 3, second);
    if (kind == 3) put(frame + 5, third);
    step(site, event, spell_got(event, from, frame));
}

static void fill(cmh_site *site)
{
    uint8_t event[16];
    for (unsigned to = 1; to <= MEMBERS; to++) {
        if (to != ASKER) step(site, event, spell_ask(event, to, 1, &holder));
        for (unsigned other = 0; other < OTHERS; other++)
            for (unsigned place = 0; place < EACH; place++) {
                unsigned origin = HOLDER + other * EACH + place;
                got(site, other + 2, 1, origin, to, 0);
                if (to != ASKER && origin != HOLDER) got(site, 2, 3, origin, HOLDER, to);
            }
    }
}

static void open_site(cmh_site *site, bool is_full)
{
    rows_len = 0;
    row(1, ASKER, is_full ? MEMBERS : 1);
    for (unsigned other = 0; other < (is_full ? OTHERS : 1); other++) row(other + 2, HOLDER + other * EACH, is_full ? EACH : 1);
    EXPECT(cmh_site_new(site, 2, rows, rows_len, 1) == CMH_OK);
    if (!is_full) return;
    /* the requests of the holder make its probes those of a process that waits */
    fill(site);
}

/* So many rounds; with a file, a sync after so many steps. */
static double took(bool is_full, int file, unsigned a_sync, unsigned rounds)
{
    uint8_t ask[16], reply[16];
    const uint8_t frame[] = {2, HOLDER >> 8, HOLDER & 255, 0, ASKER};
    size_t ask_len = spell_ask(ask, ASKER, 1, &holder), reply_len = spell_got(reply, 2, frame);
    double least = 0;
    for (int run = 0; run < RUNS; run++) {
        cmh_site site = {0};
        clockid_t clock = file < 0 ? CLOCK_PROCESS_CPUTIME_ID : CLOCK_MONOTONIC;
        double began, each;
        open_site(&site, is_full);
        began = now(clock);
        for (unsigned at = 1; at <= rounds * ROUND; at++) {
            size_t count = at % 2 ? step(&site, ask, ask_len) : step(&site, reply, reply_len);
            if (file >= 0) EXPECT(write(file, out, count) == (ssize_t)count);
            if (file >= 0 && at % a_sync == 0) EXPECT(fdatasync(file) == 0);
        }
        each = (now(clock) - began) / (rounds * ROUND);
        if (run == 0 || each < least) least = each;
        cmh_site_free(&site);
    }
    return least;
}

int main(int words, char **word)
{
    printf("alone, little %.0f\n", took(false, -1, 0, ROUNDS));
    printf("alone, fullest %.0f\n", took(true, -1, 0, ROUNDS));
    if (words > 1) {
        int file = open(word[1], O_CREAT | O_TRUNC | O_WRONLY, 0600);
        EXPECT(file >= 0);
        printf("one step a sync %.0f\n", took(false, file, 1, SYNCED / ROUND));
        printf("64 steps a sync %.0f\n", took(false, file, 64, SYNCED));
    }
    return 0;
}
