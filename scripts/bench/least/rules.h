/* What a controller does at an event, by docs/rules.md. No limit of memory is looked at, and what another site sends is believed:
   the rules refuse no message of a site that follows them. */
#include "site.h"

/* ---- waits begin and end */

static void add_away(Site *s, int p, Id k) {
    int x = s->aways[p]++;
    for (; x && s->away[p][x - 1] > k; x--) s->away[p][x] = s->away[p][x - 1];
    s->away[p][x] = k;
}

static bool remove_away(Site *s, int p, Id k) {
    Id *away = s->away[p];
    int count = s->aways[p], x = 0;
    while (x < count && away[x] != k) x++;
    if (x == count) return false;
    memmove(away + x, away + x + 1, (size_t)(count - x - 1) * sizeof *away);
    if (!--s->aways[p]) cut_bit(s->out, p);
    return true;
}

/* A wait of a process has ended. */
static void ended(Site *s, int p) {
    if (--s->waits[p]) return;
#if EDITION == 2
    memset(s->dependents + (size_t)p * row_words, 0, (size_t)row_words * 8);
#else
    s->declared_at[p] = 0;
    s->mixed[p] = false;
#endif
}

#if EDITION == 3
static Mark *mark_of(const Site *s, uint64_t key) {
    uint32_t mask = s->room_of_marks - 1, at = (uint32_t)(key * 0x9E3779B97F4A7C15u >> 40) & mask;
    while (s->hashed[at].key && s->hashed[at].key != key) at = (at + 1) & mask;
    return &s->hashed[at];
}

static __attribute__((noinline)) void grow_marks(Site *s) {
    Mark *old = s->hashed;
    uint32_t count = s->room_of_marks;
    s->room_of_marks = 4 * count;
    s->hashed = zeros(s->room_of_marks, sizeof *s->hashed);
    for (uint32_t at = 0; at < count; at++)
        if (old[at].key) *mark_of(s, old[at].key) = old[at];
    free(old);
}

/* Whether the mark is new. */
static inline bool put_mark(Site *s, int p, Id i, uint64_t n) {
    if (!ARE_MARKS_HASHED) {
        uint64_t *mark = &s->marks[(size_t)p * (size_t)processes + i];
        if (*mark >= n) return false;
        *mark = n;
        return true;
    }
    uint64_t key = (uint64_t)(p + 1) << 16 | i;
    Mark *mark = mark_of(s, key);
    if (mark->stamp >= n) return false;
    mark->stamp = n;
    if (mark->key) return true;
    mark->key = key;
    if (2 * ++s->count_of_marks > s->room_of_marks) grow_marks(s);
    return true;
}

static bool waits_for(const Site *s, int at, int p, Id k) {
    if (site_of[k] == at) return bit(s->here[p], place_of[k]);
    for (int x = 0; x < s->aways[p]; x++)
        if (s->away[p][x] == k) return true;
    return false;
}

/* Waits with another stamp come to those that a process has: each has its own from now on. */
static void mix(Site *s, int p, const Id *targets, int count) {
    uint64_t *stamps = s->stamps + (size_t)p * processes;
    if (!s->mixed[p]) {
        for (int x = 0; x < s->aways[p]; x++) stamps[s->away[p][x]] = s->oldest[p];
        for (int q = 0; q < SIZE; q++)
            if (bit(s->here[p], q)) stamps[s->member[q]] = s->oldest[p];
    }
    s->mixed[p] = true;
    for (int x = 0; x < count; x++) stamps[targets[x]] = s->clock;
}
#endif

/* ---- events: each answers 0, or the number of its refusal */

static bool are_targets(Id j, const Id *targets, int count) {
    for (int x = 0, last = -1; x < count; last = targets[x++])
        if (targets[x] <= last || targets[x] >= processes || targets[x] == j) return false;
    return true;
}

static int ask(int at, Id j, const Id *targets, int count) {
    Site *s = site[at];
    int p = place_of[j];
    uint64_t n = 0;
    sent = 0, declared = NONE;
    if (!are_targets(j, targets, count)) return 3;
#if EDITION == 2
    if (count > MOST_WAITS) return 3;
    if (s->waits[p]) return 4;
#else
    if (s->waits[p] + count > MOST_WAITS) return 3;
    if (s->leavings[p])
        for (int x = 0; x < count; x++)
            if (bit(s->leaving + (size_t)p * (size_t)row_words, targets[x])) return 14;
    if (s->waits[p])
        for (int x = 0; x < count; x++)
            if (waits_for(s, at, p, targets[x])) return 15;
    if (s->clock + 1 == UINT64_MAX) return 17;
    n = s->youngest = ++s->clock;
    s->youngest_of = j;
    s->declared_at[p] = 0;
    if (s->waits[p]) mix(s, p, targets, count);
    else s->oldest[p] = n;
    s->newest[p] = n;
    note(ASK, n, j, targets, count);
#endif
    Out to_links = open_out(at, n, n, j);
    for (int x = 0; x < count; x++) {
        Id k = targets[x];
        if (site_of[k] == at) {
            put_bit(s->here[p], place_of[k]);
            has_changed(s);
        } else {
            add_away(s, p, k);
            send(&to_links, REQUEST, k, j, j, k);
        }
    }
    if (s->aways[p]) put_bit(s->out, p);
    s->waits[p] += (uint16_t)count;
    look(s, &to_links, p, n);
    close_out(&to_links);
    return 0;
}

static int start(int at, Id i) {
    Site *s = site[at];
    int p = place_of[i];
    uint64_t n = 0;
    sent = 0, declared = NONE;
    if (!s->waits[p]) return 5;
#if EDITION == 2
    if (bit(s->declared, p)) return 7;
#else
    if (s->clock + 1 == UINT64_MAX) return 17;
    s->declared_at[p] = 0;
    n = ++s->clock;
#endif
    Out to_links = open_out(at, n, n, i);
    look(s, &to_links, p, n);
    close_out(&to_links);
    return 0;
}

/* A message alone. */
static inline void send_one(int at, uint64_t clock, int kind, Id to, Id j, Id k) {
    Out to_links = open_out(at, clock, 0, 0);
    send(&to_links, kind, to, j, j, k);
    close_out(&to_links);
}

static int reply(int at, Id k, Id j) {
    Site *s = site[at];
    int q = place_of[k];
    uint64_t clock = 0;
    sent = 0, declared = NONE;
    if (s->waits[q]) return 4;
#if EDITION == 3
    clock = s->clock;
#endif
    if (site_of[j] == at) {
        int p = place_of[j];
        if (!bit(s->here[p], q)) return 6;
        cut_bit(s->here[p], q);
        has_changed(s);
        ended(s, p);
    } else {
        uint64_t *owed = s->owed + (size_t)q * (size_t)row_words;
        if (!bit(owed, j)) return 6;
        cut_bit(owed, j);
        send_one(at, clock, REPLY, j, k, j);
    }
#if EDITION == 3
    note(REPLIES, clock, k, &j, 1);
#endif
    return 0;
}

#if EDITION == 3
static int withdraw(int at, Id j, const Id *targets, int count) {
    Site *s = site[at];
    int p = place_of[j];
    sent = 0, declared = NONE;
    if (!are_targets(j, targets, count)) return 3;
    if (!count) return 16;
    for (int x = 0; x < count; x++)
        if (!waits_for(s, at, p, targets[x])) return 16;
    note(WITHDRAWS, s->clock, j, targets, count);
    Out to_links = open_out(at, s->clock, 0, 0);
    for (int x = 0; x < count; x++) {
        Id k = targets[x];
        if (site_of[k] == at) {
            cut_bit(s->here[p], place_of[k]);
            has_changed(s);
        } else {
            remove_away(s, p, k);
            put_bit(s->leaving + (size_t)p * (size_t)row_words, k);
            s->leavings[p]++;
            send(&to_links, WITHDRAW, k, j, j, k);
        }
        ended(s, p);
    }
    close_out(&to_links);
    return 0;
}
#endif

/* ---- messages that come, of another site that follows the rules */

static void got_request(int at, Id j, Id k) { put_bit(site[at]->owed + (size_t)place_of[k] * (size_t)row_words, j); }

static void got_reply(int at, Id k, Id j) {
    Site *s = site[at];
    int p = place_of[j];
    if (remove_away(s, p, k)) {
        ended(s, p);
        return;
    }
#if EDITION == 3
    cut_bit(s->leaving + (size_t)p * (size_t)row_words, k);
    s->leavings[p]--;
#endif
}

/* A probe of i acts at a place: it goes on, or i is declared. */
static inline __attribute__((always_inline)) void pass_on(Site *s, int at, int p, bool all, uint64_t n, Id i) {
    bool is_awaited;
    Places reached = all ? reach_all(s, p, &is_awaited) : reach(s, p, false, n, i, &is_awaited);
    int home = site_of[i] == at && bit(reached.words, place_of[i]) ? place_of[i] : -1;
    uint64_t clock = 0;
#if EDITION == 2
    if (home >= 0) {
        if (bit(s->declared, home)) return;
        put_bit(s->declared, home);
#else
    clock = s->clock;
    if (home >= 0 && passes(s, home, n, i)) {
        if (s->declared_at[home]) return;
        s->declared_at[home] = declared_stop = n;
#endif
        declared = i;
        return;
    }
    Out to_links = open_out(at, clock, n, i);
    send_probes(s, &to_links, all, n, i, &reached);
    close_out(&to_links);
}

static void got_probe(int at, uint64_t n, Id i, Id j, Id k) {
    Site *s = site[at];
    int p = place_of[k];
    if (!bit(s->owed + (size_t)p * (size_t)row_words, j)) return;
#if EDITION == 2
    uint64_t *dependents = s->dependents + (size_t)p * (size_t)row_words;
    if (!s->waits[p] || bit(dependents, i)) return;
    put_bit(dependents, i);
    pass_on(s, at, p, true, n, i);
#else
    if (!passes(s, p, n, i) || !put_mark(s, p, i, n)) return;
    if (counts(s->youngest, s->youngest_of, n, i)) pass_on(s, at, p, true, n, i);
    else pass_on(s, at, p, false, n, i);
#endif
}

#if EDITION == 3
static void got_withdraw(int at, Id j, Id k) {
    Site *s = site[at];
    uint64_t *owed = s->owed + (size_t)place_of[k] * (size_t)row_words;
    if (!bit(owed, j)) return;
    cut_bit(owed, j);
    send_one(at, s->clock, REPLY, j, k, j);
}
#endif

/* Takes a message; of edition 2 without clock and stamp. A reply's `j` is who replies, and `k` who is answered. */
static void got(int at, int kind, uint64_t clock, uint64_t n, Id i, Id j, Id k) {
    sent = 0, declared = NONE;
#if EDITION == 3
    if (clock > site[at]->clock) site[at]->clock = clock;
#endif
    (void)clock;
    if (kind == PROBE) got_probe(at, n, i, j, k);
    else if (kind == REQUEST) got_request(at, j, k);
    else if (kind == REPLY) got_reply(at, j, k);
#if EDITION == 3
    else got_withdraw(at, j, k);
#endif
}
