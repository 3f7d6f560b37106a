/* The least of `cmh play`: reads the lines of a script, steps the controllers, keeps what is under way, writes the answers, and
   keeps what a report needs. A topology's faults and the refusals for too many entries are left out.

   least_play < SCRIPT        other words of the command are not looked at
   With -DEVENTS, which says the name of a file, it also writes the events of the script there, for step.c. */
#include <stdint.h>

/* Where the messages of a step go: the link of the last one, and what stands there. */
typedef struct {
    int from, to;
    uint64_t *words;
    uint32_t next, mask, count, left;
    uint64_t clock, stamp, step;
    uint16_t origin;
} Out;

#include "rules.h"
#include "text.h"

#include "report.h"

/* ---- the links */

/* A message that is under way: its processes and kind in one word, origin first, kind last. Before the first message of a step
   of edition 3 there are three words on its link: a head, the clock and the stamp. */
typedef struct {
    uint64_t *words;
    uint32_t first, count, room;        /* of the words */
    bool is_cut;
#if EDITION == 3
    uint64_t step, clock, stamp;        /* the step that sent the last message; and those of the next one to come */
    Id origin;
#endif
} Link;
static Link links[MOST_SITES][MOST_SITES];
enum { HEAD = 4 };

static inline uint64_t message(int kind, Id i, Id j, Id k) {
    return (uint64_t)i << 48 | (uint64_t)j << 32 | (uint64_t)k << 16 | (uint64_t)kind;
}
static inline uint64_t *word_at(const Link *link, uint32_t at) { return &link->words[(link->first + at) & (link->room - 1)]; }

static inline uint64_t next_word(Link *link) {
    uint64_t word = link->words[link->first];
    link->first = (link->first + 1) & (link->room - 1);
    link->count--;
    return word;
}

static __attribute__((noinline)) void grow(Link *link) {
    uint32_t room = link->room ? 2 * link->room : 256;
    link->words = realloc(link->words, room * sizeof *link->words);
    if (!link->words) stop("no memory");
    uint32_t behind = link->first + link->count > link->room ? link->first + link->count - link->room : 0;
    memcpy(link->words + link->room, link->words, behind * sizeof *link->words);
    link->room = room;
}

static uint64_t steps;

/* The messages of a step begin. */
static inline Out open_out(int from, uint64_t clock, uint64_t stamp, Id origin) {
    return (Out){.from = from, .to = -1, .clock = clock, .stamp = stamp, .origin = origin, .step = ++steps};
}

static inline void close_out(Out *out) {
    if (out->to >= 0) links[out->from][out->to].count += out->count;
    sent += out->count;
}

/* The same, but on another link, or with more room; at first with the head of this step. */
static __attribute__((noinline)) Out turned_to(Out out, int to) {
    Link *link = &links[out.from][to];
    close_out(&out);
#if EDITION == 3
    if (link->room < link->count + 4) grow(link);
    if (link->step != out.step) {
        link->step = out.step;
        *word_at(link, link->count++) = message(HEAD, out.origin, 0, 0);
        *word_at(link, link->count++) = out.clock;
        *word_at(link, link->count++) = out.stamp;
    }
#else
    if (link->room == link->count) grow(link);
#endif
    out.to = to, out.count = 0;
    out.words = link->words, out.next = link->first + link->count;
    out.mask = link->room - 1, out.left = link->room - link->count;
    return out;
}

static inline __attribute__((always_inline)) void send(Out *out, int kind, Id to, Id i, Id j, Id k) {
    if (out->to != site_of[to] || out->count == out->left) *out = turned_to(*out, site_of[to]);
    out->words[(out->next + out->count++) & out->mask] = message(kind, EDITION == 2 ? i : 0, j, k);
}

/* Of the words of a link, how many from this one on are no message. */
static int words_before(uint64_t word) { return (word & 0xFFFF) == HEAD ? 3 : 0; }

static void each_reply_under_way(void (*take)(Id k, Id j)) {
    for (int a = 0; a < sites; a++)
        for (int b = 0; b < sites; b++)
            for (uint32_t x = 0; x < links[a][b].count; x++) {
                x += (uint32_t)words_before(*word_at(&links[a][b], x));
                uint64_t word = *word_at(&links[a][b], x);
                if ((word & 0xFFFF) == REPLY) take((Id)(word >> 32), (Id)(word >> 16));
            }
}

/* ---- events */

#ifdef EVENTS
#include "events.h"
static FILE *events_file;

static void open_events(void) {
    if (events_file) return;
    events_file = fopen(EVENTS, "wb");
    if (!events_file) stop("the events can't be written");
    uint16_t head[2] = {EDITION, (uint16_t)sites};
    fwrite(head, 2, 2, events_file);
    for (int a = 0; a < sites; a++) {
        fwrite(&row_length[a], 2, 1, events_file);
        fwrite(rows[a], 2, row_length[a], events_file);
    }
}

static void record(Event event, const Id *targets) {
    open_events();
    fwrite(&event, sizeof event, 1, events_file);
    fwrite(targets, sizeof *targets, event.count, events_file);
}

static void record_got(int at, int kind, uint64_t clock, uint64_t n, Id i, Id j, Id k) {
    bool is_known = false;
#if EDITION == 2
    is_known = kind == PROBE && bit(site[at]->dependents + (size_t)place_of[k] * (size_t)row_words, i);
#endif
    record((Event){GOT, (uint8_t)at, (uint8_t)kind, is_known, 0, i, j, k, clock, n}, &i);
}

static void record_own(int kind, int at, Id j, const Id *others, int count) {
    record((Event){(uint8_t)kind, (uint8_t)at, 0, 0, (uint16_t)count, j, j, 0, 0, 0}, others);
}
#endif

/* What was sent, and who was declared. */
static inline void put_outcome(void) {
    events++;
    all_sent += sent;
    memcpy(at_end, " sent ", 6);
    at_end += 6;
    if (sent < 10) *at_end++ = (char)('0' + sent);
    else put_number(sent);
    if (declared != NONE) {
        put(" declared");
        put_process(declared);
#if EDITION == 3
        put(" at ");
        put_number(declared_stop);
#endif
    }
}

static inline void put_answer(int refusal) {
    if (refusal) {
        put("refused ");
        put_number((uint64_t)refusal);
    } else {
        memcpy(at_end, "ok", 2);
        at_end += 2;
        put_outcome();
    }
    *at_end++ = '\n';
}

static inline void deliver(int from, int to) {
    if (from == NONE || to == NONE || from == to) {
        put("bad link\n");
        return;
    }
    Link *link = &links[from][to];
    if (link->is_cut || !link->count) {
        put(link->is_cut ? "closed\n" : "empty\n");
        return;
    }
    uint64_t word = next_word(link), clock = 0, n = 0;
#if EDITION == 3
    if ((word & 0xFFFF) == HEAD) {
        link->origin = (Id)(word >> 48);
        link->clock = next_word(link);
        link->stamp = next_word(link);
        word = next_word(link);
    }
    clock = link->clock, n = link->stamp;
    Id i = link->origin;
#else
    Id i = (Id)(word >> 48);
#endif
    Id j = (Id)(word >> 32), k = (Id)(word >> 16);
    int kind = word & 3;
    all_got++;
    static const char words[4][16] = {"got request", "got reply", "got probe", "got withdraw"};
    static const uint8_t lengths[4] = {11, 9, 9, 12};
    memcpy(at_end, words[kind], 16);
    at_end += lengths[kind];
    if (kind == PROBE) {
        put_process(i);
#if EDITION == 3
        *at_end++ = ' ';
        put_number(n);
#endif
    }
    put_process(j), put_process(k);
#ifdef EVENTS
    record_got(to, kind, clock, n, i, j, k);
#endif
    got(to, kind, clock, n, i, j, k);
    put_outcome();
    *at_end++ = '\n';
}

static void cut_link(int from, int to) {
    if (from == NONE || to == NONE || from == to) {
        put("bad link");
    } else if (links[from][to].is_cut) {
        put("closed");
    } else {
        links[from][to].is_cut = true;
        uint64_t lost = 0;
        for (uint32_t x = 0; x < links[from][to].count; x++, lost++) x += (uint32_t)words_before(*word_at(&links[from][to], x));
        put("ok lost ");
        put_number(lost);
    }
    *at_end++ = '\n';
}

/* ---- lines */

static uint16_t numbers[4096 / 2];
static bool is_made;

/* How many numbers the text has, or -1. */
static inline int parse(const char *text, const char *end) {
    for (int count = 0;; count++) {
        while (text < end && *text == ' ') text++;
        if (text == end) return count;
        unsigned value = 0, digit;
        const char *first = text;
        while (text < end && (digit = (unsigned char)*text - '0') <= 9) value = 10 * value + digit, text++;
        if (!value || text - first > 4 || (text < end && *text != ' ')) return -1;
        numbers[count] = (uint16_t)value;
    }
}

static void make(void) {
    memset(site_at, 0xFF, sizeof site_at);
    for (int a = 0; a < sites; a++) site_at[site_number[a]] = (uint8_t)a;
    make_world();
    make_digits();
    is_made = true;
}

static void add_row(int count) {
    if (is_made) {
        put("late\n");
        return;
    }
    site_number[sites] = numbers[0];
    row_length[sites] = (uint16_t)(count - 1);
    memcpy(rows[sites++], numbers + 1, (size_t)(count - 1) * 2);
    put("ok\n");
}

static inline int site_named(int number) { return site_at[number] == 0xFF ? NONE : site_at[number]; }

#if EDITION == 3
/* All for whom a process waits, in place of the targets that a line does not name. */
static int own_waits(Id j, Id *targets) {
    const Site *s = site[site_of[j]];
    int p = place_of[j], count = 0;
    for (int k = 0; k < processes; k++)
        if (waits_for(s, site_of[j], p, (Id)k)) targets[count++] = (Id)k;
    return count;
}
#endif

/* An event of a process. */
static void act(char form, int count) {
    static Id ids[4096 / 2];
    if (!is_made) make();
    for (int x = 0; x < count; x++) ids[x] = id_of[numbers[x]];
    if (ids[0] == NONE || (form == 'r' && ids[1] == NONE)) {
        put_answer(1);
        return;
    }
    int at = site_of[ids[0]], refusal, kind;
    switch (form) {
    case 'a': kind = ASK, refusal = ask(at, ids[0], ids + 1, --count); break;
    case 's': kind = START, refusal = start(at, ids[0]), count = 0; break;
#if EDITION == 3
    case 'w':
        if (count == 1) count += own_waits(ids[0], ids + 1);
        kind = WITHDRAWS, refusal = withdraw(at, ids[0], ids + 1, --count);
        break;
#endif
    default: kind = REPLIES, refusal = reply(at, ids[0], ids[1]), count = 1;
    }
#ifdef EVENTS
    if (!refusal) record_own(kind, at, ids[0], ids + 1, count);
#endif
    (void)kind;
    put_answer(refusal);
}

/* Whether the line begins with the word, of at most eight bytes, and a space or its end follows. The bytes after a line can be
   read. */
static inline bool begins(const char *line, const char *end, const char *word, int length) {
    uint64_t mask = length == 8 ? UINT64_MAX : (1ull << 8 * length) - 1, text, wanted = 0;
    memcpy(&text, line, 8);
    memcpy(&wanted, word, (size_t)length);
    return !((text ^ wanted) & mask) && (line + length == end || (line + length < end && line[length] == ' '));
}

static void answer(const char *line, const char *end) {
    if (line < end && end[-1] == '\r') end--;
    while (line < end && *line == ' ') line++;
    if (line == end || *line == '#') return;
    make_room();
    int count;
    if (begins(line, end, "deliver", 7)) {
        if (parse(line + 7, end) != 2) goto bad;
        if (!is_made) make();
        deliver(site_named(numbers[0]), site_named(numbers[1]));
    } else if (begins(line, end, "ask", 3)) {
        if ((count = parse(line + 3, end)) < 2) goto bad;
        act('a', count);
    } else if (begins(line, end, "reply", 5)) {
        if (parse(line + 5, end) != 2) goto bad;
        act('r', 2);
    } else if (begins(line, end, "start", 5)) {
        if (parse(line + 5, end) != 1) goto bad;
        act('s', 1);
    } else if (EDITION == 3 && begins(line, end, "withdraw", 8)) {
        if ((count = parse(line + 8, end)) < 1) goto bad;
        act('w', count);
    } else if (begins(line, end, "site", 4)) {
        if ((count = parse(line + 4, end)) < 1) goto bad;
        add_row(count);
    } else if (begins(line, end, "edition", 7)) {
        if (parse(line + 7, end) != 1 || numbers[0] != EDITION) goto bad;
        put(is_made || sites ? "late\n" : "ok\n");
    } else if (begins(line, end, "cut", 3)) {
        if (parse(line + 3, end) != 2) goto bad;
        if (!is_made) make();
        cut_link(site_named(numbers[0]), site_named(numbers[1]));
    } else if (begins(line, end, "report", 6)) {
        if (parse(line + 6, end)) goto bad;
        if (!is_made) make();
        put_report();
    } else {
    bad:
        put("bad line\n");
    }
}

int main(void) {
    static char in[(1 << 16) + 8];
    size_t length = 0;
    for (;;) {
        flush();
        ssize_t more = read(0, in + length, sizeof in - 8 - length);
        if (more <= 0) break;
        const char *line = in, *end = in + length + more, *feed;
        for (; (feed = memchr(line, '\n', (size_t)(end - line))); line = feed + 1) answer(line, feed);
        length = (size_t)(end - line);
        memmove(in, line, length);
    }
    if (length) answer(in, in + length);
    flush();
#ifdef EVENTS
    open_events();
    fclose(events_file);
#endif
    return 0;
}
