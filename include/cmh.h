/* cmh.h: proved site controllers, readers and audits of cmh, for programs that bring their own sockets, files and threads.
 *
 * The library does no input or output, starts no thread, keeps no global state, never aborts, never blocks and never calls
 * back. It takes the bytes of what happened at a site and gives the bytes of the entry that the site's journal is to hold
 * next; the entry holds the frames to send and the declaration. All bytes are those of docs/formats.md. docs/library.md
 * has a complete loop and says what goes wrong in another order.
 *
 *   an event  ->  cmh_site_step  ->  append the entry to the journal and sync it  ->  then send its frames
 *
 * What is proved: each clause of the functions in crates/cmh_c, for every caller that keeps to this page. What a caller in
 * C can break, and nobody checks, stands here:
 *
 * OWNERSHIP  A handle lies in the caller's memory. It is zeroed before its first use (= {0}, memset, calloc), and a call
 *            `_new` opens it. `_free` closes it and gives its memory back; a closed handle may be opened again, and freed
 *            again. Its fields are the library's: do not write them. Do not copy a handle: two copies free one memory. It
 *            may be moved, if the old place is no longer used.
 * SLICES     A pointer and a length, in elements. They are lent for the call alone, and what is written overlaps nothing
 *            else that the call is given. A pointer is never null, not even for a length of 0, and it is aligned for its
 *            type; a handle is aligned to 8.
 * COUNTS     After 0 *count is how much of `out` was written, and the rest of `out` is as it was. There is one exception:
 *            the calls `_declared`, `_waits`, `_owed` and `_leaving` of a site count how many processes there are, which may
 *            be more than `out` has room for.
 * CODES      0 is success. After any other code nothing has changed: neither the handle nor what was lent. There are three
 *            exceptions: a reader keeps the fault of its link; after CMH_SHORT cmh_audit, cmh_site3_step, cmh_site3_prepare,
 *            cmh_entry3_sendings and cmh_journal3_sent tell by *count how much room they need; and cmh_site3_open tells by
 *            *place where a journal is at fault.
 *            Where several codes fit, the answer is the first that holds, in the order in which the call names them;
 *            CMH_NO_MEMORY may come instead.
 * THREADS    A handle is in one call at a time; different handles may be in calls of different threads at once. A handle
 *            may pass to another thread by a lock, a start or a join. No call may come from a signal handler, nor from the
 *            forked child of a process with threads.
 * MEMORY     The program's malloc, realloc and free. cmh_entry_sending, cmh_entry_declared, cmh_hello, cmh_site_header,
 *            cmh_site3_head, cmh_site3_entry_max, the `_keep`s and `_drop`s, cmh_reader_sender, the `_free`s and cmh_version
 *            take none.
 * STACK      At most 16 KB, but for the calls that read JSON, cmh_site_new_json and cmh_audit: 24 KB for a topology, and at
 *            most 64 KB where members that are not looked at nest deeper.
 * VERSIONS   cmh_version() is the CMH_VERSION of the header that the library was built with: compare its first two bytes.
 *            Within one of these, handles keep their size, and no code and no byte gets another meaning.
 */
#ifndef CMH_H
#define CMH_H

#include <stdbool.h>
#include <stddef.h>
#include <stdint.h>

#ifdef __cplusplus
extern "C" {
#endif

/* Two bytes for what is incompatible, one for what is new, one for what is mended. */
#define CMH_VERSION UINT32_C(0x00010000)
uint32_t cmh_version(void);

typedef uint32_t cmh_code;
enum {
    CMH_OK = 0,

    /* The refusals of docs/rules.md, by their numbers. */
    CMH_UNKNOWN_PROCESS = 1,
    CMH_NOT_HERE = 2, /* of cmh_site_new: the site is not in the topology */
    CMH_BAD_TARGETS = 3,
    CMH_BLOCKED = 4,
    CMH_NOT_BLOCKED = 5,
    CMH_NOT_OWED = 6,
    CMH_ALREADY_DECLARED = 7,
    CMH_UNLAWFUL = 8,
    CMH_NO_MEMORY = 11,
    CMH_JOURNAL_FULL = 12, /* it holds 1,000,000 entries; of cmh_site3_open: more */

    /* Those of edition 3 alone. */
    CMH_LEAVING = 14,       /* an ask names a process that the asker is leaving */
    CMH_ALREADY_WAITS = 15, /* an ask names a process that the asker waits for */
    CMH_NOT_WAITING = 16,   /* a withdrawal names a process that the process does not wait for */
    CMH_CLOCK_SPENT = 17,   /* the clock of the site can't rise */

    /* What only a caller of this library can get wrong. */
    CMH_NO_SPELLING = 20,  /* the bytes are not those of one event, or of one entry */
    CMH_SHORT = 21,        /* `out` is too short */
    CMH_CLOSED = 22,       /* the handle is closed */
    CMH_OPEN = 23,         /* the handle is open already */
    CMH_NO_EDITION = 24,   /* the edition is not 1 or 2 */
    CMH_NO_ROWS = 25,      /* the words are not those of rows, or the text is not the JSON of a topology */
    CMH_PREPARED = 26,     /* an entry is prepared, and has to be kept or dropped first */
    CMH_NOT_PREPARED = 27, /* no entry is prepared */
    CMH_NO_NUMBER = 28,    /* the number of a site is not from 1 to 9999 */
    CMH_NO_SENDING = 29,   /* the entry sends fewer frames */
    CMH_NO_FILES = 30,     /* the lengths do not sum to the bytes */

    /* The faults of a topology: 30 and their number in docs/formats.md. */
    CMH_TOPOLOGY_LIMIT = 31,
    CMH_TOPOLOGY_SITE_TWICE = 32,
    CMH_TOPOLOGY_PROCESS_TWICE = 33,
    CMH_TOPOLOGY_NUMBER = 34,

    /* The faults of a link: 40 and their number in docs/formats.md. */
    CMH_BAD_HELLO = 41,
    CMH_BAD_FRAME = 42,
    CMH_WRONG_SITE = 43,

    /* What only a caller with a site of edition 3 can get wrong. */
    CMH_NO_WORLD = 50, /* the number of a world has not 16 bytes */

    /* The faults of a journal of edition 3. */
    CMH_NO_SEGMENT = 51,     /* the bytes do not begin with the whole head of a segment */
    CMH_DAMAGED = 52,        /* what stands behind its good entries is not the rest of one append */
    CMH_OTHER_SEGMENT = 53,  /* it is of another site or world, or does not begin with its world */
    CMH_UNLAWFUL_ENTRY = 54, /* an entry is not what the rules make of its event */

    /* Why a link of edition 3 does not go on: 60 and the refusal's number in docs/formats.md. */
    CMH_MORE_THAN_SENT = 67, /* the other site got more messages than this journal sends: this journal lacks entries */
    CMH_OTHER_MESSAGES = 68  /* it got others than this journal sends: this journal is of another history */
};

/* ---- a site ---- */

typedef struct {
    bool is_open;
    void *held;
} cmh_site;

/* No entry is longer; the first is for edition 1 alone. */
#define CMH_ENTRY_MAX_1 5327
#define CMH_ENTRY_MAX 20881

/* How long the beginning of a journal is. */
#define CMH_HEADER_LEN 7

/* How many processes of one site there are at most. */
#define CMH_SITE_PROCESSES_MAX 64

/* Opens site `number` of the world with these rows, before its first step. Each row is the words: the site, how many
 * processes it has, and these. They are copied.
 * Codes: OPEN, NO_EDITION, NO_ROWS, TOPOLOGY_.., NOT_HERE. */
cmh_code cmh_site_new(cmh_site *site, uint8_t edition, const uint16_t *rows, size_t rows_len, uint16_t number);

/* The same, from the text of a topology file. Ports are not looked at.
 * Codes: OPEN, NO_ROWS, TOPOLOGY_.., NOT_HERE. */
cmh_code cmh_site_new_json(cmh_site *site, const uint8_t *json, size_t json_len, uint16_t number);

/* Writes the 7 bytes with which the site's journal begins.
 * Codes: CLOSED, SHORT. */
cmh_code cmh_site_header(cmh_site *site, uint8_t *out, size_t out_len);

/* Takes one event: ask 01 j n k.., reply 02 k j, start 03 i, or got 04 A frame. Writes the entry, and how long it is. The
 * targets of an ask ascend, and none is the asker: else the bytes are those of no event.
 * Frames that are sent before their entry is kept can declare what no journal explains. Where the append or the sync
 * fails, send nothing and free the site: its state is ahead of its journal.
 * Codes: CLOSED, PREPARED, JOURNAL_FULL, NO_SPELLING, the refusals from 1 to 8, SHORT. */
cmh_code cmh_site_step(cmh_site *site, const uint8_t *event, size_t event_len, uint8_t *out, size_t out_len,
                       size_t *count);

/* The first half of a step, for callers that go on where an append fails: it writes the entry and keeps the way back.
 * Then keep or drop, neither of which takes memory. In between, step, prepare, declared, waits and owed answer PREPARED.
 * Codes: as of cmh_site_step. */
cmh_code cmh_site_prepare(cmh_site *site, const uint8_t *event, size_t event_len, uint8_t *out, size_t out_len,
                          size_t *count);

/* The second half: the entry is in the journal.
 * Codes: CLOSED, NOT_PREPARED. */
cmh_code cmh_site_keep(cmh_site *site);

/* In place of the second half: the site is as it was before the event.
 * Codes: CLOSED, NOT_PREPARED. */
cmh_code cmh_site_drop(cmh_site *site);

/* Each of these writes processes, ascending. *count is how many there are, also where `out` has room for fewer: then the
 * last are left out, and `out` holds out_len of them. They are those that were declared deadlocked here, at most
 * CMH_SITE_PROCESSES_MAX; those that a process of this site waits for; those whose requests a process of this site has
 * not answered. A process waits for at most 32 others, and owes at most 1,023.
 * Codes: CLOSED, PREPARED, and of the last two UNKNOWN_PROCESS, NOT_HERE. */
cmh_code cmh_site_declared(cmh_site *site, uint16_t *out, size_t out_len, size_t *count);
cmh_code cmh_site_waits(cmh_site *site, uint16_t process, uint16_t *out, size_t out_len, size_t *count);
cmh_code cmh_site_owed(cmh_site *site, uint16_t process, uint16_t *out, size_t out_len, size_t *count);

/* Closes the site. An entry that is prepared is dropped. */
void cmh_site_free(cmh_site *site);

/* ---- what an entry says ---- */

/* A frame that an entry sends: the site that it goes to, and the place of its bytes in the entry. */
typedef struct {
    uint16_t to;
    size_t offset;
    size_t len;
} cmh_sending;

/* Tells the frame at the place, from 0, among those that the entry sends, in their order.
 * Codes: NO_EDITION, NO_SPELLING, NO_SENDING. */
cmh_code cmh_entry_sending(uint8_t edition, const uint8_t *entry, size_t entry_len, size_t place, cmh_sending *out);

/* Tells the process that the entry declares, or 0.
 * Codes: NO_EDITION, NO_SPELLING. */
cmh_code cmh_entry_declared(uint8_t edition, const uint8_t *entry, size_t entry_len, uint16_t *process);

/* ---- a reader of what one site sends on one link ---- */

typedef struct {
    bool is_open;
    void *held;
} cmh_reader;

/* How much longer than a piece the frames can be that it makes whole. */
#define CMH_FRAME_LEFT 6

/* Opens a reader of a link that begins with the hello of one of these sites.
 * Codes: OPEN, NO_EDITION, NO_NUMBER. */
cmh_code cmh_reader_new(cmh_reader *reader, uint8_t edition, const uint16_t *senders, size_t senders_len);

/* Takes the next piece of the stream, however it was cut, and writes the frames that are whole by it, one after the other
 * in their own spelling: a frame is 5 bytes, or 7 where its first is 03. `out` has room for piece_len + CMH_FRAME_LEFT
 * bytes. Frames before a fault are given first, and the fault at each later call. After CMH_NO_MEMORY the same piece may be
 * fed again; after another fault the link is of no use.
 * Codes: CLOSED, SHORT, BAD_HELLO, BAD_FRAME, WRONG_SITE. */
cmh_code cmh_reader_feed(cmh_reader *reader, const uint8_t *piece, size_t piece_len, uint8_t *out, size_t out_len,
                         size_t *count);

/* The site whose hello was read, or 0 before that, and of a closed reader. */
uint16_t cmh_reader_sender(cmh_reader *reader);

void cmh_reader_free(cmh_reader *reader);

/* How long the beginning of a link is. */
#define CMH_HELLO_LEN 6

/* Writes the 6 bytes with which a link from the site begins.
 * Codes: NO_EDITION, NO_NUMBER, SHORT. */
cmh_code cmh_hello(uint8_t edition, uint16_t site, uint8_t *out, size_t out_len);

/* ---- an audit ---- */

/* Whether the journals of all sites come from one run: the lines of `cmh audit`, as text with no null at its end. The
 * journals' files stand one after the other in `files`, in any order, and `lens` has the length of each. *status is 0
 * where they come from one run, 1 where they do not, and 3 where a file is at fault, which the text names. It copies each
 * file once, and takes as long as `cmh audit`.
 * Codes: NO_FILES, and SHORT, after which *count is how long the text is. */
cmh_code cmh_audit(const uint8_t *json, size_t json_len, const uint8_t *files, size_t files_len, const size_t *lens,
                   size_t lens_len, uint8_t *out, size_t out_len, size_t *count, uint8_t *status);

/* ---- a site of edition 3 ----
 *
 * In edition 3 a blocked process may ask for more, and a process may withdraw its waits: so a deadlock ends, and the run goes
 * on with the same processes. A world has at most 64 sites and 4,096 processes, and a process waits for at most 255 others. A
 * message is a frame with the clock of its sender: its length is 13, or 23 where its first byte is 03. The clock and the stamps
 * are kept by the site. The journal is a segment of epoch 0, whose entries are chained by marks: they stand in its file in the
 * order in which they were written, and nothing stands between them. The order is as above:
 *
 *   an event  ->  cmh_site3_step  ->  append the entry to the journal and sync it  ->  then send its messages
 *
 * The messages of one site to another have to come once and in their order. What is at the head of this page holds here, too.
 */

typedef struct {
    bool is_open;
    void *held;
} cmh_site3;

/* How many bytes the number of a world has. */
#define CMH_WORLD_LEN 16

/* How long the beginning of a journal is. */
#define CMH_SITE3_HEAD_LEN 71

/* How many processes of one site there are at most. */
#define CMH_SITE3_PROCESSES_MAX 256

/* The longest message. */
#define CMH_MESSAGE_MAX 23

/* How long the longest entry is: 1,701,897 bytes. Few come near: a step with one message makes 35 to 60 bytes. So lend what
 * you have, and more after SHORT. */
size_t cmh_site3_entry_max(void);

/* Opens site `number` of the world with this number and these rows, before its first step. The rows are words as those of
 * cmh_site_new. The number of the world has CMH_WORLD_LEN bytes: draw them at random for each run that begins, the same for
 * all its sites (`cmh new-world` prints some). All is copied.
 * Codes: OPEN, NO_WORLD, NO_ROWS, TOPOLOGY_.., NOT_HERE. */
cmh_code cmh_site3_new(cmh_site3 *site, const uint8_t *world, size_t world_len, const uint16_t *rows, size_t rows_len,
                       uint16_t number);

/* Writes the 71 bytes with which the site's journal begins.
 * Codes: CLOSED, SHORT. */
cmh_code cmh_site3_head(cmh_site3 *site, uint8_t *out, size_t out_len);

/* Takes one event: ask 01 j n k.., reply 02 k j, start 03 i, got 04 A message, or withdraw 07 j n k... The targets of an ask
 * or a withdrawal are 1 to 255, they ascend, and none is j itself: else the bytes are those of no event. Of an ask none may
 * be one that j waits for already, or is leaving; of a withdrawal each is one that j waits for.
 * Writes the entry, and how long it is. After SHORT *count is how long it would be: nothing has changed, so lend that much and
 * make the call again. Send nothing before the entry is kept. Where the append or the sync fails, free the site: its state is
 * ahead of its journal.
 * Codes: CLOSED, PREPARED, JOURNAL_FULL, NO_SPELLING, the refusals 1 to 6, 8 and 14 to 17, SHORT. */
cmh_code cmh_site3_step(cmh_site3 *site, const uint8_t *event, size_t event_len, uint8_t *out, size_t out_len,
                        size_t *count);

/* A step in two halves, as cmh_site_prepare, _keep and _drop. In between, step, prepare, declared, waits, owed and leaving
 * answer PREPARED.
 * Codes: as of cmh_site3_step; and of the last two CLOSED, NOT_PREPARED. */
cmh_code cmh_site3_prepare(cmh_site3 *site, const uint8_t *event, size_t event_len, uint8_t *out, size_t out_len,
                           size_t *count);
cmh_code cmh_site3_keep(cmh_site3 *site);
cmh_code cmh_site3_drop(cmh_site3 *site);

/* Each of these writes processes, ascending. *count is how many there are, also where `out` has room for fewer: then the
 * last are left out, and `out` holds out_len of them. They are those that are declared deadlocked here now, at most
 * CMH_SITE3_PROCESSES_MAX: a process that asks, is started or is blocked no more is not declared until it is found again.
 * Those that a process of this site waits for, at most 255. Those whose requests a process of this site has not answered. And
 * those of other sites that a process of this site has given up and can't ask again before their sites have answered. Of
 * the last two there are at most 4,095.
 * Codes: CLOSED, PREPARED, and of the last three UNKNOWN_PROCESS, NOT_HERE. */
cmh_code cmh_site3_declared(cmh_site3 *site, uint16_t *out, size_t out_len, size_t *count);
cmh_code cmh_site3_waits(cmh_site3 *site, uint16_t process, uint16_t *out, size_t out_len, size_t *count);
cmh_code cmh_site3_owed(cmh_site3 *site, uint16_t process, uint16_t *out, size_t out_len, size_t *count);
cmh_code cmh_site3_leaving(cmh_site3 *site, uint16_t process, uint16_t *out, size_t out_len, size_t *count);

/* Closes the site. An entry that is prepared is dropped. */
void cmh_site3_free(cmh_site3 *site);

/* Tells the messages that an entry sends, in the order in which they are to be sent, and how many they are. An entry of n
 * bytes sends at most n / 16. After SHORT *count is how many they are. The mark of the entry is not looked at.
 * Codes: NO_SPELLING, SHORT. */
cmh_code cmh_entry3_sendings(const uint8_t *entry, size_t entry_len, cmh_sending *out, size_t out_len, size_t *count);

/* Tells the process that the entry declares, and the stamp of the stop at which its cycle stood; or 0 and 0. The process may
 * withdraw: then the deadlock has ended.
 * Codes: NO_SPELLING. */
cmh_code cmh_entry3_declared(const uint8_t *entry, size_t entry_len, uint16_t *process, uint64_t *stamp);

/* ---- a site of edition 3 that starts again, and its links ----
 *
 * A site that ended, however it ended, goes on with its journal, and so do its links. What that takes stands in the journal
 * alone: these calls take the bytes of its file, and keep nothing. A call takes about as long as reading the file.
 *
 *   read the file  ->  cmh_site3_open  ->  cut the file at *place, write its end once more, sync  ->  then step, send and tell
 *
 * A link goes on where the receiver says. When a connection is made the receiver tells what cmh_journal3_got says: how many of
 * the sender's messages are in its journal, and their mark. The sender writes what cmh_journal3_sent gives, and then the
 * messages of its further entries, as they are kept. So each message comes once and in order, whoever was killed, and whatever
 * connection was cut, if three things are so: what is told or sent stands in a journal that is synced; a receiver that has told
 * its count on a new connection takes no more messages from an older one; and the disk keeps what was synced. Between sites
 * that run `cmh` the count and the mark stand in the answer to a hello (docs/formats.md).
 */

/* Opens the site on the bytes of its journal: it stands where the entries lead, and its next entry goes behind them. An entry
 * that stands there whole was kept, also one whose step was never answered. What world and rows are says cmh_site3_new.
 * *place is how many of the bytes are the journal. Those behind are what one append left that did not end: cut the file there.
 * Nothing may be sent or told before this is done: the file is cut, the last bytes of the journal are written once more over
 * themselves, and the file is synced. As many have to be written as were appended between two syncs at most; where that was one
 * entry, cmh_site3_entry_max() are enough. A sync alone is not: after one that failed it may succeed for nothing.
 * After CMH_DAMAGED *place is the offset of the damage, and after CMH_UNLAWFUL_ENTRY the number of the entry, counted from 1:
 * then cut nothing, since it is not the journal that this site wrote.
 * Codes: OPEN, NO_WORLD, NO_ROWS, TOPOLOGY_.., NOT_HERE, NO_SEGMENT, DAMAGED, OTHER_SEGMENT, UNLAWFUL_ENTRY, JOURNAL_FULL. */
cmh_code cmh_site3_open(cmh_site3 *site, const uint8_t *world, size_t world_len, const uint16_t *rows, size_t rows_len,
                        uint16_t number, const uint8_t *journal, size_t journal_len, uint64_t *place);

/* Tells how many messages of site `from` the journal has got, and the mark of their bytes. What stands behind its last whole
 * entry is not looked at, if it can be cut.
 * Codes: NO_NUMBER, NO_SEGMENT, DAMAGED, OTHER_SEGMENT. */
cmh_code cmh_journal3_got(const uint8_t *journal, size_t journal_len, uint16_t from, uint64_t *count, uint64_t *mark);

/* Writes the messages that the journal sends to site `to`, but for those that this site has got: the first `got`, which have
 * this mark. They stand one after the other, in the order in which they are to be sent. *count is how many bytes there are,
 * and after SHORT how many there would be.
 * After MORE_THAN_SENT and OTHER_MESSAGES the journal is not the newest one of its site: an old copy was put back, or two sites
 * ran on copies of it. Tell the other site, and let this one take no more steps.
 * Codes: NO_NUMBER, NO_SEGMENT, DAMAGED, OTHER_SEGMENT, MORE_THAN_SENT, OTHER_MESSAGES, SHORT. */
cmh_code cmh_journal3_sent(const uint8_t *journal, size_t journal_len, uint16_t to, uint64_t got, uint64_t mark, uint8_t *out,
                           size_t out_len, size_t *count);

#ifdef __cplusplus
}
#endif
#endif
