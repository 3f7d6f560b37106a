/* What the controllers of a world's sites keep, and their searches, as plainly and tightly as C has them. EDITION is 2 or 3, and
   a site has at most 64 * WORDS processes. Both editions have the same tables but for what the rules of edition 3 add.

   Who includes this has a type `Out` before, and says what becomes of the messages of a step: `open_out` is told what those of
   edition 3 have in common, `send` each message, and `close_out` the end. Of edition 3 it also has `note`, which is told of the
   events that a report needs. */
#include <stdbool.h>
#include <stdint.h>
#include <stdio.h>
#include <stdlib.h>
#include <string.h>

#ifndef EDITION
#define EDITION 3
#endif
#ifndef WORDS
#define WORDS 1
#endif

enum { SIZE = 64 * WORDS, MOST_SITES = 64, MOST = 4096, MOST_NUMBER = 9999, MOST_WAITS = EDITION == 2 ? 32 : 255, NONE = 0xFFFF };
enum { REQUEST, REPLY, PROBE, WITHDRAW };       /* kinds of messages; less by one than in files */
enum { ASK = 1, REPLIES, START, GOT, WITHDRAWS = 7 };   /* kinds of events, as in files */

/* A set of places. */
typedef struct { uint64_t words[WORDS]; } Places;

/* A process by its rank among the numbers of all, so that ranks are in the order of the numbers. */
typedef uint16_t Id;

#if EDITION == 3
typedef struct { uint64_t key, stamp; } Mark;   /* the key is a place and an Id, or 0 */
enum { ARE_MARKS_HASHED = WORDS > 1 };
#endif

typedef struct {
    Id member[SIZE];                    /* at its place */
    uint64_t here[SIZE][WORDS];         /* the places of those for whom it waits */
    uint16_t waits[SIZE];               /* for how many it waits, here and elsewhere */
    uint16_t aways[SIZE];
    Id away[SIZE][MOST_WAITS];          /* for whom of other sites, ascending */
#ifdef REMEMBER
    uint64_t version, version_of[SIZE]; /* how often `here` has changed; and at which one a search was made, of which is known: */
    Places reached[SIZE];
    bool is_awaited[SIZE];
#endif
    uint64_t out[WORDS];                /* the places of those who wait for some of other sites */
    uint64_t *owed;                     /* at a place bits by Id: who of other sites is owed a reply */
#if EDITION == 2
    uint64_t *dependents;               /* at a place bits by Id */
    uint64_t declared[WORDS];
#else
    uint64_t clock, youngest;           /* the stamp of the newest ask with targets */
    Id youngest_of;
    uint64_t oldest[SIZE], newest[SIZE];    /* no wait is older, none is younger */
    bool mixed[SIZE];                   /* the waits have their own stamps, in `stamps`; or else they have one */
    uint64_t *stamps;                   /* at a place by Id */
    uint64_t *marks;                    /* at a place by Id. An old mark needs no end: the waits since are younger */
    Mark *hashed;                       /* those of a larger site */
    uint32_t count_of_marks, room_of_marks;
    uint64_t declared_at[SIZE];
    uint64_t *leaving;                  /* at a place bits by Id */
    uint16_t leavings[SIZE];
#endif
} Site;

static int processes, row_words, sites;
static Id id_of[MOST_NUMBER + 1];
static uint16_t number_of[MOST];
static uint8_t site_of[MOST], place_of[MOST];
static Site *site[MOST_SITES];

/* What came of the last step. */
static uint32_t sent;
static Id declared;
#if EDITION == 3
static uint64_t declared_stop;
#endif

static inline Out open_out(int from, uint64_t clock, uint64_t stamp, Id origin);
static inline void send(Out *to_links, int kind, Id to, Id i, Id j, Id k);
static inline void close_out(Out *to_links);
#if EDITION == 3
static inline void note(int kind, uint64_t clock, Id j, const Id *others, int count);
#endif

static inline bool bit(const uint64_t *row, int at) { return row[at / 64] >> at % 64 & 1; }
static inline void put_bit(uint64_t *row, int at) { row[at / 64] |= 1ull << at % 64; }
static inline void cut_bit(uint64_t *row, int at) { row[at / 64] &= ~(1ull << at % 64); }

/* ---- searches */

#if EDITION == 3
/* Whether a wait of j since t counts for the ask of i with stamp n. */
static inline bool counts(uint64_t t, Id j, uint64_t n, Id i) { return t < n || (t == n && j <= i); }

/* Of a row in which some waits count and some do not, those that count. */
static uint64_t counting(const Site *s, int p, int word, uint64_t n, Id i) {
    uint64_t row = 0;
    for (uint64_t left = s->here[p][word]; left; left &= left - 1) {
        int q = 64 * word + __builtin_ctzll(left);
        if (counts(s->stamps[(size_t)p * processes + s->member[q]], s->member[p], n, i)) row |= left & -left;
    }
    return row;
}

/* Whether some wait of a process counts. */
static inline bool passes(const Site *s, int p, uint64_t n, Id i) {
    Id j = s->member[p];
    if (!s->waits[p] || !counts(s->oldest[p], j, n, i)) return false;
    if (!s->mixed[p] || counts(s->newest[p], j, n, i)) return true;
    const uint64_t *stamps = s->stamps + (size_t)p * (size_t)processes;
    for (int x = 0; x < s->aways[p]; x++)
        if (counts(stamps[s->away[p][x]], j, n, i)) return true;
    for (int w = 0; w < WORDS; w++)
        if (counting(s, p, w, n, i)) return true;
    return false;
}
#endif

/* The word of a set that has a place, and the place in it. */
static inline int word_of(int p) { return WORDS == 1 ? 0 : p / 64; }
static inline uint64_t bit_of(int p) { return 1ull << p % 64; }

/* What a process reaches, and whether any of these waits for it. Of edition 3 the waits that count for the ask of i with stamp n
   lead on; all of them, if all of the site do. */
static inline __attribute__((always_inline))
Places reach(const Site *s, int start, bool all, uint64_t n, Id i, bool *is_awaited) {
    Places led = {{0}}, reached = {{0}};
    int w = word_of(start), q = start;
    uint64_t now = 0, in = reached.words[w] = bit_of(start);    /* of one word: what is not looked at yet, and what is reached */
    (void)all, (void)n, (void)i;
    for (;;) {
        const uint64_t *row = s->here[q];
#if EDITION == 3
        uint64_t some[WORDS];
        if (!all && !counts(s->newest[q], s->member[q], n, i)) {
            bool each = s->mixed[q] && counts(s->oldest[q], s->member[q], n, i);
            for (int v = 0; v < WORDS; v++) some[v] = each ? counting(s, q, v, n, i) : 0;
            row = some;
        }
#endif
        uint64_t fresh = row[w] & ~in;
        now |= fresh, in |= fresh;
        for (int v = 0; v < WORDS; v++) led.words[v] |= row[v];
        if (!now) {
            reached.words[w] = in;
            for (w = 0; w < WORDS && !(led.words[w] & ~reached.words[w]);) w++;
            if (WORDS == 1 || w == WORDS) break;
            now = led.words[w] & ~reached.words[w];
            in = reached.words[w] | now;
        }
        q = 64 * (WORDS == 1 ? 0 : w) + __builtin_ctzll(now);
        now &= now - 1;
    }
    *is_awaited = (led.words[word_of(start)] & bit_of(start)) != 0;
    return reached;
}

/* The same where all waits count. With -DREMEMBER a search is made again only where a wait within the site began or ended since. */
static inline Places reach_all(Site *s, int start, bool *is_awaited) {
#ifdef REMEMBER
    if (s->version_of[start] != s->version + 1) {
        s->reached[start] = reach(s, start, true, 0, 0, &s->is_awaited[start]);
        s->version_of[start] = s->version + 1;
    }
    *is_awaited = s->is_awaited[start];
    return s->reached[start];
#else
    return reach(s, start, true, 0, 0, is_awaited);
#endif
}

static inline void has_changed(Site *s) {
    (void)s;
#ifdef REMEMBER
    s->version++;
#endif
}

/* The probes of the ask of i along the waits that leave the site and count. */
static inline __attribute__((always_inline))
void send_probes(const Site *s, Out *to_links, bool all, uint64_t n, Id i, const Places *reached) {
    (void)all, (void)n;
    for (int w = 0; w < WORDS; w++)
        for (uint64_t left = reached->words[w] & s->out[w]; left; left &= left - 1) {
            int p = 64 * w + __builtin_ctzll(left);
            Id j = s->member[p];
            const Id *away = s->away[p];
#if EDITION == 3
            if (!all && !counts(s->oldest[p], j, n, i)) continue;
            bool each = !all && s->mixed[p] && !counts(s->newest[p], j, n, i);
#endif
            for (int x = 0, count = s->aways[p]; x < count; x++) {
#if EDITION == 3
                if (each && !counts(s->stamps[(size_t)p * (size_t)processes + away[x]], j, n, i)) continue;
#endif
                send(to_links, PROBE, away[x], i, j, away[x]);
            }
        }
}

/* What follows an ask or a start: all waits count for it. */
static inline __attribute__((always_inline)) void look(Site *s, Out *to_links, int p, uint64_t n) {
    bool is_awaited;
    Id j = s->member[p];
    Places reached = reach_all(s, p, &is_awaited);
    if (!is_awaited) {
        send_probes(s, to_links, true, n, j, &reached);
        return;
    }
#if EDITION == 2
    if (bit(s->declared, p)) return;
    put_bit(s->declared, p);
#else
    s->declared_at[p] = declared_stop = n;
#endif
    declared = j;
}

/* ---- the topology */

static void stop(const char *why) {
    fprintf(stderr, "%s\n", why);
    exit(1);
}

static void *zeros(size_t count, size_t size) {
    void *made = calloc(count ? count : 1, size);
    if (!made) stop("no memory");
    return made;
}

static uint16_t rows[MOST_SITES][SIZE], row_length[MOST_SITES];

/* The rows of the topology are whole. */
static void make_world(void) {
    static bool is_named[MOST_NUMBER + 1];
    memset(id_of, 0xFF, sizeof id_of);
    memset(is_named, 0, sizeof is_named);
    for (int a = 0; a < sites; a++)
        for (int x = 0; x < row_length[a]; x++) is_named[rows[a][x]] = true;
    processes = 0;
    for (int number = 1; number <= MOST_NUMBER; number++)
        if (is_named[number]) number_of[processes] = (uint16_t)number, id_of[number] = (Id)processes++;
    for (int a = 0; a < sites; a++)
        for (int x = 0; x < row_length[a]; x++) site_of[id_of[rows[a][x]]] = (uint8_t)a;
    row_words = (processes + 63) / 64;
    int count[MOST_SITES] = {0};
    for (int a = 0; a < sites; a++) {
        Site *s = site[a] = zeros(1, sizeof *s);
        s->owed = zeros((size_t)SIZE * (size_t)row_words, 8);
#if EDITION == 2
        s->dependents = zeros((size_t)SIZE * (size_t)row_words, 8);
#else
        s->leaving = zeros((size_t)SIZE * (size_t)row_words, 8);
        s->stamps = zeros((size_t)SIZE * (size_t)processes, 8);
        s->room_of_marks = 256;
        s->hashed = zeros(s->room_of_marks, sizeof *s->hashed);
        if (!ARE_MARKS_HASHED) s->marks = zeros((size_t)SIZE * (size_t)processes, 8);
#endif
    }
    for (int id = 0; id < processes; id++) {
        int a = site_of[id], p = count[a]++;
        place_of[id] = (uint8_t)p;
        site[a]->member[p] = (Id)id;
    }
}
