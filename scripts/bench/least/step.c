/* The least of a step: the controllers alone, with their events in memory, and what they send put into one array.

   least_step RUNS FIRST ALL      files of events that least_play wrote. The events of ALL behind as many as FIRST has are timed,
                                  in so many runs. It prints how many there are, the messages sent and the declarations, and
                                  the least nanoseconds an event.

   Events of edition 2 can be given to edition 3, so that both editions take the same: then clocks rise and probes are new where
   edition 2 lets them act, so that as many messages are sent. */
#include <stdint.h>
#include <time.h>

/* A message of edition 2 is a word. Of edition 3 a word says the same without the origin; a step has one head. With -DWHOLE each
   message of edition 3 has its clock and stamp. */
typedef struct { uint64_t clock, stamp; uint64_t word; } Whole;
typedef struct { uint64_t *first, *next; Whole whole; } Out;

#include "rules.h"
#include "events.h"

static uint64_t buffer[1 << 17];

static inline Out open_out(int from, uint64_t clock, uint64_t stamp, Id origin) {
    (void)from;
    Out out = {buffer, buffer, {clock, stamp, origin}};
#if EDITION == 3 && !defined WHOLE
    buffer[0] = clock, buffer[1] = stamp, buffer[2] = origin;
    out.first = out.next = buffer + 3;
#endif
    return out;
}

static inline __attribute__((always_inline)) void send(Out *out, int kind, Id to, Id i, Id j, Id k) {
    uint64_t word = (uint64_t)i << 48 | (uint64_t)j << 32 | (uint64_t)k << 16 | (uint64_t)(site_of[to] << 2 | kind);
#if EDITION == 3 && defined WHOLE
    *out->next++ = out->whole.clock, *out->next++ = out->whole.stamp;
#endif
    *out->next++ = word;
}

static inline void close_out(Out *out) {
    sent = (uint32_t)(out->next - out->first);
#ifdef WHOLE
    sent /= EDITION == 3 ? 3 : 1;
#endif
}

#if EDITION == 3
static inline void note(int kind, uint64_t clock, Id j, const Id *others, int count) {
    (void)kind, (void)clock, (void)j, (void)others, (void)count;
}
#endif

/* ---- events */

typedef struct { Event *events; Id **targets; size_t count; } Events;

static uint64_t messages, declarations;

static void *read_file(const char *path, size_t *length) {
    FILE *file = fopen(path, "rb");
    uint8_t *bytes = malloc(1 << 26);
    if (!file || !bytes) stop("a file can't be read");
    *length = fread(bytes, 1, 1 << 26, file);
    fclose(file);
    return bytes;
}

static Events read_events(const char *path, int *edition) {
    size_t length, at;
    uint8_t *bytes = read_file(path, &length);
    uint16_t *head = (uint16_t *)bytes;
    *edition = *head++;
    sites = *head++;
    for (int a = 0; a < sites; a++) {
        row_length[a] = *head++;
        memcpy(rows[a], head, row_length[a] * sizeof *head);
        head += row_length[a];
    }
    Events read = {zeros(1 << 18, sizeof(Event)), zeros(1 << 18, sizeof(Id *)), 0};
    for (at = (size_t)((uint8_t *)head - bytes); at < length; read.count++) {
        Event *event = &read.events[read.count];
        memcpy(event, bytes + at, sizeof *event);
        read.targets[read.count] = (Id *)(bytes + at + sizeof *event);
        at += sizeof *event + event->count * sizeof(Id);
    }
    return read;
}

#if EDITION == 3
/* Gives events of edition 2 clocks and stamps. */
static void give_stamps(Events *given) {
    uint64_t *stamp = zeros((size_t)MOST * MOST, 8), clock[MOST_SITES] = {0};
    for (size_t x = 0; x < given->count; x++) {
        Event *event = &given->events[x];
        uint64_t *of = &stamp[(size_t)event->k * MOST + event->i];
        bool is_probe = event->kind == GOT && event->message == PROBE;
        if (event->kind == ASK || event->kind == START || (is_probe && !event->is_known)) clock[event->at]++;
        if (is_probe && !event->is_known) *of = clock[event->at];
        event->clock = clock[event->at];
        event->n = *of;
    }
    free(stamp);
}
#endif

static inline __attribute__((always_inline)) int step(const Event *event, const Id *targets) {
    switch (event->kind) {
    case GOT: got(event->at, event->message, event->clock, event->n, event->i, event->j, event->k); return 0;
    case ASK: return ask(event->at, event->j, targets, event->count);
    case START: return start(event->at, event->j);
#if EDITION == 3
    case WITHDRAWS: return withdraw(event->at, event->j, targets, event->count);
#endif
    default: return reply(event->at, event->j, targets[0]);
    }
}

static __attribute__((noinline)) void steps(const Events *given, size_t from, size_t to) {
    for (size_t x = from; x < to; x++) {
        if (step(&given->events[x], given->targets[x])) stop("an event is refused");
        messages += sent;
        declarations += declared != NONE;
    }
}

static __attribute__((noinline)) void timed(const Events *given, size_t from, size_t to) { steps(given, from, to); }

static void end_world(void) {
    for (int a = 0; a < sites; a++) {
        Site *s = site[a];
#if EDITION == 2
        free(s->dependents);
#else
        free(s->leaving), free(s->stamps), free(s->marks), free(s->hashed);
#endif
        free(s->owed), free(s);
    }
}

static double seconds(void) {
    struct timespec now;
    clock_gettime(CLOCK_PROCESS_CPUTIME_ID, &now);
    return (double)now.tv_sec + (double)now.tv_nsec / 1e9;
}

int main(int count, char **words) {
    int edition;
    if (count != 4) stop("usage: least_step RUNS FIRST ALL");
    size_t from = read_events(words[2], &edition).count;
    Events given = read_events(words[3], &edition);
#if EDITION == 3
    if (edition == 2) give_stamps(&given);
#endif
    double least = 1e9;
    for (int run = atoi(words[1]); run > 0; run--) {
        make_world();
        steps(&given, 0, from);
        messages = declarations = 0;
        double begin = seconds();
        timed(&given, from, given.count);
        double spent = seconds() - begin;
        if (spent < least) least = spent;
        end_world();
    }
    printf("events %zu sent %llu declared %llu nanoseconds %.1f\n", given.count - from, (unsigned long long)messages,
           (unsigned long long)declarations, least * 1e9 / (double)(given.count - from));
    return 0;
}
