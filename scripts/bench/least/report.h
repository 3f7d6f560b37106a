/* The report on a run. It comes after rules.h and text.h. Who includes it tells which replies are under way; of edition 3 it is
   told the asks, replies and withdrawals of the run, since the cycle of a declaration is one of its stop. */

static uint64_t events, all_sent, all_got;

/* Calls `take` with each reply of k to j that is under way. */
static void each_reply_under_way(void (*take)(Id k, Id j));

static uint64_t *waiting;               /* bits: at j and k, that j waits for k */

static uint64_t *row_of(uint64_t *table, int j) { return table + (size_t)j * (size_t)row_words; }

static uint64_t *new_table(void) { return zeros((size_t)processes * (size_t)row_words, 8); }

static void take_reply(Id k, Id j) { cut_bit(row_of(waiting, j), k); }

/* What the controllers keep, without what is answered already. */
static void find_waits(void) {
    waiting = new_table();
    for (int id = 0; id < processes; id++) {
        const Site *s = site[site_of[id]];
        int p = place_of[id];
        for (int q = 0; q < SIZE; q++)
            if (bit(s->here[p], q)) put_bit(row_of(waiting, id), s->member[q]);
        for (int x = 0; x < s->aways[p]; x++) put_bit(row_of(waiting, id), s->away[p][x]);
    }
    each_reply_under_way(take_reply);
}

static void put_pairs(const char *word, uint64_t *table) {
    for (int j = 0; j < processes; j++)
        for (int k = 0; k < processes; k++)
            if (bit(row_of(table, j), k)) {
                make_room();
                put(word);
                put_process((Id)j), put_process((Id)k);
                *at_end++ = '\n';
            }
}

/* Of the shortest cycles through i the least, without its end: how many processes it has, or 0. */
static int cycle_of(uint64_t *table, int i, Id *cycle) {
    static int far[MOST];               /* how far i is from a process */
    memset(far, 0, sizeof far);
    bool is_new = true;
    for (int length = 1; is_new && !far[i]; length++) {
        is_new = false;
        for (int j = 0; j < processes; j++)
            for (int k = 0; k < processes && !far[j]; k++) {
                if (!bit(row_of(table, j), k) || !(length == 1 ? k == i : far[k] == length - 1)) continue;
                far[j] = length, is_new = true;
            }
    }
    if (!far[i]) return 0;
    cycle[0] = (Id)i;
    for (int at = 1; at < far[i]; at++)
        for (int k = 0; k < processes; k++)
            if (bit(row_of(table, cycle[at - 1]), k) && far[k] == far[i] - at && k != i) {
                cycle[at] = (Id)k;
                break;
            }
    return far[i];
}

static bool put_cycle(uint64_t *table, Id i, Id *cycle, int *length) {
    if (!(*length = cycle_of(table, i, cycle))) return false;
    put(" cycle");
    for (int x = 0; x < *length; x++) {
        make_room();
        put_process(cycle[x]);
    }
    put_process(i);
    return true;
}

#if EDITION == 2
static void put_declared(Id i) {
    static Id cycle[MOST];
    int length;
    if (!bit(site[site_of[i]]->declared, place_of[i])) return;
    make_room();
    put("declared");
    put_process(i);
    put_cycle(waiting, i, cycle, &length);
    *at_end++ = '\n';
}
#else
/* The asks, replies and withdrawals: of each its kind, the clock after it, and its processes. */
static uint16_t *noted;
static size_t noted_length, noted_room;

static inline void note(int kind, uint64_t clock, Id j, const Id *others, int count) {
    if (noted_room - noted_length < 7 + MOST_WAITS) {
        noted_room = noted_room ? 2 * noted_room : 1 << 12;
        noted = realloc(noted, noted_room * sizeof *noted);
        if (!noted) stop("no memory");
    }
    uint16_t *to = noted + noted_length;
    to[0] = (uint16_t)kind;
    memcpy(to + 1, &clock, 8);
    to[5] = j, to[6] = (uint16_t)count;
    memcpy(to + 7, others, (size_t)count * sizeof *others);
    noted_length += 7 + (size_t)count;
}

/* The waits at stop n, those of them that stand, and those whose askers have withdrawn since. */
static void find_stop(uint64_t n, uint64_t *waits, uint64_t *standing, uint64_t *left) {
    size_t bytes = (size_t)processes * (size_t)row_words * 8;
    memset(waits, 0, bytes), memset(left, 0, bytes);
    for (int later = 0; later < 2; later++) {
        for (size_t at = 0; at < noted_length; at += 7u + noted[at + 6]) {
            uint64_t clock;
            memcpy(&clock, noted + at + 1, 8);
            bool is_ask = noted[at] == ASK;
            if ((clock < n || (clock == n && is_ask)) == later) continue;
            for (int x = 0; x < noted[at + 6]; x++) {
                int j = noted[at + 5], k = noted[at + 7 + (size_t)x];
                if (is_ask && !later) put_bit(row_of(waits, j), k);
                if (noted[at] == REPLIES) cut_bit(row_of(later ? standing : waits, k), j);
                if (noted[at] == WITHDRAWS) cut_bit(row_of(later ? standing : waits, j), k);
                if (noted[at] == WITHDRAWS && later) put_bit(row_of(left, j), k);
            }
        }
        if (!later) memcpy(standing, waits, bytes);
    }
}

static void put_declared(Id i) {
    static Id cycle[MOST];
    int length;
    uint64_t n = site[site_of[i]]->declared_at[place_of[i]];
    if (!n) return;
    uint64_t *waits = new_table(), *standing = new_table(), *left = new_table();
    find_stop(n, waits, standing, left);
    make_room();
    put("declared");
    put_process(i);
    put(" at ");
    put_number(n);
    if (put_cycle(standing, i, cycle, &length)) {
        put(" stands");
    } else if (put_cycle(waits, i, cycle, &length)) {
        int leaver = NONE;
        for (int x = 0; x < length; x++)
            if (bit(row_of(left, cycle[x]), x + 1 < length ? cycle[x + 1] : i) && cycle[x] < leaver) leaver = cycle[x];
        put(" left by");
        put_process((Id)leaver);
    }
    *at_end++ = '\n';
    free(waits), free(standing), free(left);
}
#endif

static void put_report(void) {
    make_room();
    put("accepted\nevents ");
    put_number(events);
    if (all_sent == all_got) {
        put("\ndrained\n");
    } else {
        put("\nin transit ");
        put_number(all_sent - all_got);
        put("\n");
    }
    find_waits();
    put_pairs("wait", waiting);
#if EDITION == 3
    uint64_t *table = new_table();
    for (int id = 0; id < processes; id++)
        memcpy(row_of(table, id), site[site_of[id]]->leaving + (size_t)place_of[id] * (size_t)row_words, (size_t)row_words * 8);
    put_pairs("leaving", table);
    free(table);
#endif
    for (int id = 0; id < processes; id++) put_declared((Id)id);
    free(waiting);
}
