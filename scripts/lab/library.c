/* The laboratory of the C library: each line of the input is a call of include/cmh.h, and each answer a line.
 *
 * tests/lab/README.md lists the lines; scripts/lab/run spells the events and frames of the files in bytes, compiles this
 * program and gives it the lines. It takes no memory but that of the library, so that an allocation that is refused, or
 * counted, is the library's.
 */
#define _POSIX_C_SOURCE 200809L
#include "cmh.h"

#include <stdarg.h>
#include <stdio.h>
#include <stdlib.h>
#include <string.h>

enum { LINE = 1 << 17, WORDS = 256, NAMES = 64, NAME = 16, ROWS = 4096, JOURNAL = 1 << 14, FILE_ROOM = 8 << 20, FILES = 8, OUT = 1 << 17, SENDINGS = 1 << 12 };

struct topology {
    uint8_t edition;
    uint16_t rows[ROWS];
    size_t len;
};

/* Of the two handles that of its edition is open. */
struct site {
    cmh_site handle;
    cmh_site3 handle3;
    uint8_t edition, journal[JOURNAL];
    size_t len;
};

struct file {
    uint8_t bytes[FILE_ROOM];
    size_t len;
};

enum kind { FREE, TOPOLOGY, SITE, READER, BYTES };

static struct {
    char name[NAME + 1];
    enum kind kind;
    union {
        struct topology topology;
        struct site site;
        cmh_reader reader;
        struct file *file;
    } of;
} named[NAMES];
static struct file files[FILES];
static size_t files_used, rounds;

static char line[LINE], answer[OUT], *word[WORDS];
static size_t words, at, answered;
static uint8_t in[LINE], out[OUT];

/* The number of the world of edition 3. */
static const uint8_t world[CMH_WORLD_LEN];

/* ---- the answer */

static void say(const char *text, ...)
{
    va_list rest;
    if (answered + 1 < OUT && answered) answer[answered++] = ' ';
    va_start(rest, text);
    answered += (size_t)vsnprintf(answer + answered, OUT - answered, text, rest);
    va_end(rest);
}

static void say_bytes(const uint8_t *bytes, size_t len)
{
    if (!len) say("none");
    else say("%02X", bytes[0]);
    for (size_t i = 1; i < len; i++) answered += (size_t)snprintf(answer + answered, OUT - answered, "%02X", bytes[i]);
}

static void bad_line(void)
{
    answered = 0;
    say("bad line");
    at = words = 0;
}

/* Says what a code means; answers whether the call did what it was asked. */
static bool done(cmh_code code)
{
    if (code == CMH_OK) return true;
    if (code == CMH_NO_MEMORY) say("out of memory");
    else if (code < 20) say("refused %u", code);
    else if (code > 30 && code < 40) say("fault %u", code - 30);
    else if (code > 40) say("bad %u", code - 40);
    else say("code %u", code);
    return false;
}

static unsigned number_at(const uint8_t *bytes) { return (unsigned)bytes[0] << 8 | bytes[1]; }

/* A clock or a stamp. No test has one above 2^32. */
static unsigned stamp_at(const uint8_t *bytes) { return number_at(bytes + 4) << 16 | number_at(bytes + 6); }

/* Says a frame and gives its length. */
static size_t say_frame(const uint8_t *frame)
{
    static const char *const kinds[] = {"none", "request", "reply", "probe"};
    size_t len = frame[0] == 3 ? 7 : 5;
    say("%s", kinds[frame[0] & 3]);
    for (size_t i = 1; i < len; i += 2) say("%u", number_at(frame + i));
    return len;
}

static void say_message(const uint8_t *message)
{
    static const char *const kinds[] = {"withdraw", "request", "reply", "probe"};
    const uint8_t *numbers = message + 9;
    say("%s", kinds[message[0] & 3]);
    if (message[0] == 3) {
        say("%u %u", number_at(message + 17), stamp_at(numbers));
        numbers = message + 19;
    }
    say("%u %u at %u", number_at(numbers), number_at(numbers + 2), stamp_at(message + 1));
}

/* The same in edition 3. Where memory is refused the entry is read once more. */
static void say_entry3(const uint8_t *entry, size_t len)
{
    static cmh_sending sent[SENDINGS];
    size_t count;
    uint16_t declared;
    uint64_t stamp;
    cmh_code code = cmh_entry3_sendings(entry, len, sent, SENDINGS, &count);
    if (code == CMH_NO_MEMORY) code = cmh_entry3_sendings(entry, len, sent, SENDINGS, &count);
    if (!done(code)) return;
    for (size_t i = 0; i < count; i++) {
        say("sent");
        say_message(entry + sent[i].offset);
        say("to %u", sent[i].to);
    }
    code = cmh_entry3_declared(entry, len, &declared, &stamp);
    if (code == CMH_NO_MEMORY) code = cmh_entry3_declared(entry, len, &declared, &stamp);
    if (done(code) && declared) say("declared %u at %u", declared, (unsigned)stamp);
}

/* Says what an entry sends and declares. */
static void say_entry(uint8_t edition, const uint8_t *entry, size_t len)
{
    if (edition == 3) {
        say_entry3(entry, len);
        return;
    }
    cmh_sending sending;
    uint16_t declared;
    cmh_code code;
    for (size_t place = 0; (code = cmh_entry_sending(edition, entry, len, place, &sending)) == CMH_OK; place++) {
        say("sent");
        say_frame(entry + sending.offset);
        say("to %u", sending.to);
    }
    if (code != CMH_NO_SENDING) done(code);
    else if (done(cmh_entry_declared(edition, entry, len, &declared)) && declared) say("declared %u", declared);
}

/* ---- what the words spell */

static const char *next(void) { return at < words ? word[at++] : ""; }

static unsigned long number(void) { return strtoul(next(), NULL, 10); }

static int digit(char letter)
{
    const char *digits = "0123456789ABCDEF", *found = letter ? strchr(digits, letter) : NULL;
    return found ? (int)(found - digits) : -1;
}

/* The bytes of the next word. */
static size_t bytes(uint8_t *to, size_t room)
{
    const char *text = next();
    size_t len = strcmp(text, "none") ? strlen(text) / 2 : 0;
    if (len > room) len = 0;
    for (size_t i = 0; i < len; i++) to[i] = (uint8_t)(digit(text[2 * i]) << 4 | digit(text[2 * i + 1]));
    return len;
}

/* The place of a name: that of the object that has it, else a free one. */
static size_t place_of(const char *name)
{
    size_t free = NAMES;
    for (size_t i = 0; i < NAMES; i++) {
        if (named[i].kind != FREE && strcmp(named[i].name, name) == 0) return i;
        if (named[i].kind == FREE && free == NAMES) free = i;
    }
    return free;
}

static void let_go(size_t place)
{
    if (named[place].kind == SITE) {
        cmh_site_free(&named[place].of.site.handle);
        cmh_site3_free(&named[place].of.site.handle3);
    }
    if (named[place].kind == READER) cmh_reader_free(&named[place].of.reader);
    if (named[place].kind != BYTES) memset(&named[place].of, 0, sizeof named[place].of);
    named[place].kind = FREE;
}

/* The place of the next word, for an object of this kind in place of what has the name. */
static size_t new_place(enum kind kind)
{
    const char *name = next();
    size_t place = place_of(name);
    struct file *file = NULL;
    if (place == NAMES || strlen(name) > NAME || !*name) exit(3);
    if (named[place].kind == BYTES) file = named[place].of.file;
    let_go(place);
    if (kind == BYTES) {
        if (!file && files_used == FILES) exit(4);
        named[place].of.file = file ? file : &files[files_used++];
        named[place].of.file->len = 0;
    }
    strcpy(named[place].name, name);
    named[place].kind = kind;
    return place;
}

/* The object of this kind that the next word names. */
static size_t known(enum kind kind)
{
    size_t place = place_of(next());
    if (place < NAMES && named[place].kind == kind) return place;
    bad_line();
    return NAMES;
}

/* ---- calls */

/* topology T EDITION SITE:PROCESS,.. */
static void topology(void)
{
    size_t place = new_place(TOPOLOGY);
    struct topology *made = &named[place].of.topology;
    cmh_site trial = {0};
    cmh_site3 trial3 = {0};
    cmh_code code;
    made->edition = (uint8_t)number();
    while (at < words) {
        char *rest;
        size_t count = made->len + 1;
        made->rows[made->len] = (uint16_t)strtoul(next(), &rest, 10);
        made->len += 2;
        while (*rest && rest[1]) made->rows[made->len++] = (uint16_t)strtoul(rest + 1, &rest, 10);
        made->rows[count] = (uint16_t)(made->len - count - 1);
    }
    if (made->edition == 3) code = cmh_site3_new(&trial3, world, sizeof world, made->rows, made->len, 0);
    else code = cmh_site_new(&trial, made->edition, made->rows, made->len, 0);
    cmh_site_free(&trial);
    cmh_site3_free(&trial3);
    if (code == CMH_NOT_HERE) say("ok");
    else if (!done(code)) let_go(place);
}

/* Writes what the journal of a site begins with, and answers how long it is. */
static size_t begin(struct site *of, uint8_t *to)
{
    if (of->edition == 3) return cmh_site3_head(&of->handle3, to, JOURNAL) ? 0 : CMH_SITE3_HEAD_LEN;
    return cmh_site_header(&of->handle, to, JOURNAL) ? 0 : CMH_HEADER_LEN;
}

/* site S T SITE, or json S SITE TEXT */
static void site(bool is_json)
{
    size_t place = new_place(SITE), of = is_json ? 0 : known(TOPOLOGY);
    struct site *made = &named[place].of.site;
    cmh_code code;
    if (of == NAMES) return;
    if (is_json) {
        uint16_t here = (uint16_t)number();
        const char *text = next();
        code = cmh_site_new_json(&made->handle, (const uint8_t *)text, strlen(text), here);
    } else {
        struct topology *topology = &named[of].of.topology;
        uint16_t here = (uint16_t)number();
        made->edition = topology->edition;
        if (made->edition == 3) code = cmh_site3_new(&made->handle3, world, sizeof world, topology->rows, topology->len, here);
        else code = cmh_site_new(&made->handle, topology->edition, topology->rows, topology->len, here);
    }
    if (!done(code)) {
        let_go(place);
        return;
    }
    made->len = begin(made, made->journal);
    made->edition = made->journal[4];
    say("ok");
}

/* S step EVENT, S prepare EVENT in its two halves, S back EVENT taken back */
static void step(struct site *of, const char *how)
{
    size_t len = bytes(in, sizeof in), count;
    bool prepares = strcmp(how, "step") != 0, keeps = strcmp(how, "back") != 0;
    cmh_code code;
    if (of->edition == 3) {
        code = (prepares ? cmh_site3_prepare : cmh_site3_step)(&of->handle3, in, len, out, sizeof out, &count);
        if (code == CMH_OK && prepares) code = (keeps ? cmh_site3_keep : cmh_site3_drop)(&of->handle3);
    } else {
        code = (prepares ? cmh_site_prepare : cmh_site_step)(&of->handle, in, len, out, sizeof out, &count);
        if (code == CMH_OK && prepares) code = (keeps ? cmh_site_keep : cmh_site_drop)(&of->handle);
    }
    if (!done(code)) return;
    say("ok");
    say_entry(of->edition, out, count);
    if (keeps && of->len + count <= JOURNAL) {
        memcpy(of->journal + of->len, out, count);
        of->len += count;
    }
}

/* S times COUNT EVENT ..: so many rounds of these; how many were taken, and the last code */
static void times(struct site *of)
{
    unsigned long turns = number(), taken = 0;
    size_t from = at, count;
    cmh_code code = CMH_OK;
    for (unsigned long turn = 0; turn < turns; turn++)
        for (at = from; at < words;) {
            size_t len = bytes(in, sizeof in);
            code = cmh_site_step(&of->handle, in, len, out, sizeof out, &count);
            taken += code == CMH_OK;
        }
    say("taken %lu", taken);
    done(code);
}

static void say_processes(cmh_code code, const uint16_t *processes, size_t count)
{
    if (!done(code)) return;
    if (!count) say("none");
    for (size_t i = 0; i < count; i++) say("%u", processes[i]);
}

/* S leaving P, and the questions of editions 1 and 2 */
static void of_site3(struct site *of, const char *call)
{
    static uint16_t processes[4096];
    cmh_site3 *site = &of->handle3;
    size_t count = 0;
    cmh_code code;
    if (!strcmp(call, "declared")) code = cmh_site3_declared(site, processes, 4096, &count);
    else if (!strcmp(call, "waits")) code = cmh_site3_waits(site, (uint16_t)number(), processes, 4096, &count);
    else if (!strcmp(call, "owed")) code = cmh_site3_owed(site, (uint16_t)number(), processes, 4096, &count);
    else if (!strcmp(call, "leaving")) code = cmh_site3_leaving(site, (uint16_t)number(), processes, 4096, &count);
    else {
        bad_line();
        return;
    }
    say_processes(code, processes, count);
}

static void of_site(struct site *of)
{
    static uint16_t processes[1024];
    const char *call = next();
    size_t count = 0;
    if (!strcmp(call, "step") || !strcmp(call, "prepare") || !strcmp(call, "back")) step(of, call);
    else if (!strcmp(call, "header")) say_bytes(out, begin(of, out));
    else if (!strcmp(call, "journal")) say_bytes(of->journal, of->len);
    else if (of->edition == 3) of_site3(of, call);
    else if (!strcmp(call, "times")) times(of);
    else if (!strcmp(call, "declared")) {
        cmh_code code = cmh_site_declared(&of->handle, processes, 1024, &count);
        say_processes(code, processes, count);
    } else if (!strcmp(call, "waits")) {
        cmh_code code = cmh_site_waits(&of->handle, (uint16_t)number(), processes, 1024, &count);
        say_processes(code, processes, count);
    } else if (!strcmp(call, "owed")) {
        cmh_code code = cmh_site_owed(&of->handle, (uint16_t)number(), processes, 1024, &count);
        say_processes(code, processes, count);
    } else bad_line();
}

/* reader R EDITION SITE.. */
static void reader(void)
{
    size_t place = new_place(READER), count = 0;
    uint16_t senders[64];
    uint8_t edition = (uint8_t)number();
    while (at < words && count < 64) senders[count++] = (uint16_t)number();
    if (done(cmh_reader_new(&named[place].of.reader, edition, senders, count))) say("ok");
    else let_go(place);
}

/* Says `ok` and the frames that a piece makes whole, or the fault. */
static bool feed(cmh_reader *of, const uint8_t *piece, size_t len)
{
    size_t count = 0, told = 0;
    if (!done(cmh_reader_feed(of, piece, len, out, sizeof out, &count))) return false;
    say("ok");
    while (told < count) told += say_frame(out + told);
    return true;
}

static void of_reader(cmh_reader *of)
{
    const char *call = next();
    if (!strcmp(call, "feed")) {
        size_t len = bytes(in, sizeof in);
        feed(of, in, len);
    } else if (!strcmp(call, "sender")) say("%u", cmh_reader_sender(of));
    else bad_line();
}

/* hello EDITION SITE */
static void hello(void)
{
    uint8_t edition = (uint8_t)number(), to[CMH_HELLO_LEN];
    if (done(cmh_hello(edition, (uint16_t)number(), to, sizeof to))) say_bytes(to, sizeof to);
}

/* B add BYTES, B repeat COUNT BYTES, B cut LEN: how many bytes there are then */
static void of_bytes(struct file *of)
{
    const char *call = next();
    unsigned long count = strcmp(call, "add") ? number() : 1;
    if (!strcmp(call, "cut")) of->len = count < of->len ? count : of->len;
    else {
        size_t len = bytes(in, sizeof in);
        for (unsigned long i = 0; i < count && of->len + len <= FILE_ROOM; i++, of->len += len) memcpy(of->bytes + of->len, in, len);
    }
    say("%zu", of->len);
}

static size_t spell(char *to, const struct topology *of)
{
    size_t len = (size_t)sprintf(to, "{\"edition\":%u,\"sites\":[", of->edition);
    for (size_t row = 0; row < of->len; row += 2u + of->rows[row + 1]) {
        len += (size_t)sprintf(to + len, "%s{\"site\":%u,\"processes\":[", row ? "," : "", of->rows[row]);
        for (size_t i = 0; i < of->rows[row + 1]; i++) len += (size_t)sprintf(to + len, "%s%u", i ? "," : "", of->rows[row + 2 + i]);
        len += (size_t)sprintf(to + len, "]}");
    }
    return len + (size_t)sprintf(to + len, "]}");
}

/* audit T B..: the status and the lines, with a stroke after each */
static void audit(void)
{
    static uint8_t together[FILES * FILE_ROOM];
    static char json[1 << 16];
    size_t of = known(TOPOLOGY), lens[FILES], count = 0, len = 0, written = 0;
    uint8_t status = 0;
    if (of == NAMES) return;
    while (at < words && count < FILES) {
        size_t place = known(BYTES);
        if (place == NAMES) return;
        memcpy(together + len, named[place].of.file->bytes, named[place].of.file->len);
        len += lens[count++] = named[place].of.file->len;
    }
    if (!done(cmh_audit((uint8_t *)json, spell(json, &named[of].of.topology), together, len, lens, count, out, sizeof out, &written, &status))) return;
    say("%u ", status);
    for (size_t i = 0; i < written && answered + 4 < OUT; i++) {
        if (out[i] != '\n') answer[answered++] = (char)out[i];
        else {
            memcpy(answer + answered, " / ", 3);
            answered += i + 1 < written ? 3 : 2;
        }
    }
}

static void call(void)
{
    const char *first = next();
    if (!strcmp(first, "forget")) {
        for (size_t i = 0; i < NAMES; i++) let_go(i);
        files_used = 0;
        say("ok");
    } else if (!strcmp(first, "rounds")) {
        rounds = number();
        say("ok");
    } else if (!strcmp(first, "topology")) topology();
    else if (!strcmp(first, "site")) site(false);
    else if (!strcmp(first, "json")) site(true);
    else if (!strcmp(first, "reader")) reader();
    else if (!strcmp(first, "hello")) hello();
    else if (!strcmp(first, "audit")) audit();
    else if (!strcmp(first, "entry")) {
        uint8_t edition = (uint8_t)number();
        say_entry(edition, in, bytes(in, sizeof in));
        if (!answered) say("ok");
    } else if (!strcmp(first, "bytes")) {
        struct file *made = named[new_place(BYTES)].of.file;
        made->len = bytes(made->bytes, FILE_ROOM);
        say("ok");
    } else {
        size_t place = place_of(first);
        if (place == NAMES) bad_line();
        else if (named[place].kind == SITE) of_site(&named[place].of.site);
        else if (named[place].kind == READER) of_reader(&named[place].of.reader);
        else if (named[place].kind == BYTES) of_bytes(named[place].of.file);
        else bad_line();
    }
}

/* Makes the call of the words, which `again` and `still` do not count among. */
static void call_once(size_t from)
{
    size_t count = words;
    answered = 0;
    answer[0] = 0;
    at = from;
    call();
    words = count;
}

static bool was_refused(void)
{
    static const char says[] = "out of memory";
    return answered >= sizeof says - 1 && strcmp(answer + answered - (sizeof says - 1), says) == 0;
}

int main(void)
{
    static char read_ahead[1 << 16], to_write[1 << 16];
    setvbuf(stdin, read_ahead, _IOFBF, sizeof read_ahead);
    setvbuf(stdout, to_write, _IOFBF, sizeof to_write);
    while (fgets(line, sizeof line, stdin)) {
        size_t len = strcspn(line, "\n"), from;
        bool again, still;
        line[len] = 0;
        if (!len || line[0] == '#') continue;
        words = 0;
        for (char *rest = line, *found; words < WORDS && (found = strtok_r(rest, " ", &rest));) word[words++] = found;
        again = words && !strcmp(word[0], "again");
        still = words && !strcmp(word[0], "still");
        from = again || still;
        call_once(from);
        if (again && was_refused()) call_once(from);
        for (size_t i = 0; still && i < rounds; i++) call_once(from);
        answer[answered] = 0;
        puts(answer);
    }
    return fflush(stdout) ? 6 : 0;
}
