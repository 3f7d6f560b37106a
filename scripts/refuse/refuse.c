/* Preloaded into a program, this refuses the Nth call of one kind, once, or lets each read and write move one byte.

   REFUSE=KIND:N         KIND is memory, read, write, sync or thread; the Nth call of it, counted from 1, fails. Of the kinds
                         interrupted-read and interrupted-write a signal interrupts it; of empty-write it takes nothing
   REFUSE=short          each read and each write moves at most one byte
   REFUSE=short KIND:N   both
   EARLIER=1             where a file has one beside it with the ending .earlier, that one is read the first time
   REFUSE_MARK=F         the file F is made when a call is refused
   REFUSE_COUNT=F        at the end the file F gets the number of allocations */
#define _GNU_SOURCE
#include <dlfcn.h>
#include <errno.h>
#include <fcntl.h>
#include <pthread.h>
#include <stdarg.h>
#include <stdio.h>
#include <stdlib.h>
#include <string.h>
#include <sys/syscall.h>
#include <unistd.h>

extern void *__libc_malloc(size_t);
extern void *__libc_calloc(size_t, size_t);
extern void *__libc_realloc(void *, size_t);

enum kind { NONE, MEMORY, READ, WRITE, SYNC, THREAD, INTERRUPTED_READ, INTERRUPTED_WRITE, EMPTY_WRITE };
static enum kind wanted;
static int moves_one;
static long place, calls, allocations;

__attribute__((constructor)) static void begin(void) {
    static const struct { const char *name; enum kind kind; } kinds[] = {
        {"memory:", MEMORY}, {"read:", READ}, {"write:", WRITE}, {"sync:", SYNC}, {"thread:", THREAD},
        {"interrupted-read:", INTERRUPTED_READ}, {"interrupted-write:", INTERRUPTED_WRITE}, {"empty-write:", EMPTY_WRITE}};
    const char *text = getenv("REFUSE");
    allocations = 0;
    if (text && strncmp(text, "short", 5) == 0) {
        moves_one = 1;
        text += 5;
        text += strspn(text, " ");
    }
    for (size_t i = 0; text && i < sizeof kinds / sizeof *kinds; i++) {
        size_t length = strlen(kinds[i].name);
        if (strncmp(text, kinds[i].name, length) == 0) {
            wanted = kinds[i].kind;
            place = atol(text + length);
        }
    }
}

__attribute__((destructor)) static void end(void) {
    const char *path = getenv("REFUSE_COUNT");
    if (!path) return;
    char text[32];
    int length = snprintf(text, sizeof text, "%ld\n", allocations);
    int file = (int)syscall(SYS_open, path, O_WRONLY | O_CREAT | O_TRUNC, 0644);
    if (file >= 0) { syscall(SYS_write, file, text, (size_t)length); syscall(SYS_close, file); }
}

static int refused(enum kind kind, int error) {
    if (wanted != kind || __atomic_add_fetch(&calls, 1, __ATOMIC_SEQ_CST) != place) return 0;
    const char *path = getenv("REFUSE_MARK");
    if (path) syscall(SYS_close, syscall(SYS_open, path, O_WRONLY | O_CREAT, 0644));
    errno = error;
    return 1;
}

static int no_memory(void) {
    __atomic_add_fetch(&allocations, 1, __ATOMIC_SEQ_CST);
    return refused(MEMORY, ENOMEM);
}

void *malloc(size_t size) { return no_memory() ? NULL : __libc_malloc(size); }
void *calloc(size_t count, size_t size) { return no_memory() ? NULL : __libc_calloc(count, size); }
void *realloc(void *block, size_t size) { return no_memory() ? NULL : __libc_realloc(block, size); }

ssize_t read(int file, void *buffer, size_t size) {
    if (refused(READ, EIO) || refused(INTERRUPTED_READ, EINTR)) return -1;
    return syscall(SYS_read, file, buffer, moves_one && size > 1 ? 1 : size);
}

ssize_t write(int file, const void *buffer, size_t size) {
    if (refused(WRITE, EIO) || refused(INTERRUPTED_WRITE, EINTR)) return -1;
    if (refused(EMPTY_WRITE, 0)) return 0;
    return syscall(SYS_write, file, buffer, moves_one && size > 1 ? 1 : size);
}

/* Whether this file is opened for the first time. */
static int is_new(const char *path) {
    static char seen[16][256];
    static size_t count;
    for (size_t i = 0; i < count; i++) if (strcmp(seen[i], path) == 0) return 0;
    if (count < 16 && strlen(path) < 256) strcpy(seen[count++], path);
    return 1;
}

int open(const char *path, int flags, ...) {
    char earlier[300];
    va_list rest;
    va_start(rest, flags);
    mode_t mode = flags & O_CREAT ? va_arg(rest, mode_t) : 0;
    va_end(rest);
    if (getenv("EARLIER") && strlen(path) < 256 && is_new(path)) {
        snprintf(earlier, sizeof earlier, "%s.earlier", path);
        int file = (int)syscall(SYS_open, earlier, flags & ~O_CREAT, 0);
        if (file >= 0) return file;
    }
    return (int)syscall(SYS_open, path, flags, mode);
}

int fsync(int file) { return refused(SYNC, EIO) ? -1 : (int)syscall(SYS_fsync, file); }
int fdatasync(int file) { return refused(SYNC, EIO) ? -1 : (int)syscall(SYS_fdatasync, file); }

int pthread_create(pthread_t *thread, const pthread_attr_t *how, void *(*run)(void *), void *with) {
    static int (*make)(pthread_t *, const pthread_attr_t *, void *(*)(void *), void *);
    if (refused(THREAD, EAGAIN)) return EAGAIN;
    if (!make) make = dlsym(RTLD_NEXT, "pthread_create");
    return make(thread, how, run, with);
}
