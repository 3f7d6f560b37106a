/* What the checks share: events in the bytes of docs/formats.md, and an end where something is not as it should be. */
#include "cmh.h"

#include <stdio.h>
#include <stdlib.h>
#include <string.h>

static inline void put(uint8_t *at, unsigned number)
{
    at[0] = (uint8_t)(number >> 8);
    at[1] = (uint8_t)number;
}

static inline size_t spell_ask(uint8_t *at, unsigned asker, size_t count, const uint16_t *holders)
{
    at[0] = 1;
    put(at + 1, asker);
    at[3] = (uint8_t)count;
    for (size_t i = 0; i < count; i++) put(at + 4 + 2 * i, holders[i]);
    return 4 + 2 * count;
}

static inline size_t spell_reply(uint8_t *at, unsigned holder, unsigned asker)
{
    at[0] = 2;
    put(at + 1, holder);
    put(at + 3, asker);
    return 5;
}

static inline size_t spell_start(uint8_t *at, unsigned process)
{
    at[0] = 3;
    put(at + 1, process);
    return 3;
}

static inline size_t frame_len(const uint8_t *frame) { return frame[0] == 3 ? 7 : 5; }

static inline size_t spell_got(uint8_t *at, unsigned from, const uint8_t *frame)
{
    at[0] = 4;
    put(at + 1, from);
    memcpy(at + 3, frame, frame_len(frame));
    return 3 + frame_len(frame);
}

/* Those of edition 3. */
static inline size_t spell_withdraw(uint8_t *at, unsigned process, size_t count, const uint16_t *holders)
{
    size_t len = spell_ask(at, process, count, holders);
    at[0] = 7;
    return len;
}

static inline size_t spell_message(uint8_t *at, unsigned from, const uint8_t *message, size_t len)
{
    at[0] = 4;
    put(at + 1, from);
    memcpy(at + 3, message, len);
    return 3 + len;
}

#define EXPECT(holds) \
    do { \
        if (!(holds)) { \
            fprintf(stderr, "%s:%d: not so: %s\n", __FILE__, __LINE__, #holds); \
            exit(1); \
        } \
    } while (0)
