/* Preloaded into a program, this keeps beside the folder of a journal what a power cut would leave of it.

   POWER_FOLDER=F     the folder
   POWER_KEPT=K       a folder for what is on the disk for good: `inode-N` has the bytes of the file with this inode that were
                      synced, and `names` the names and inodes that the folder had when it was synced last
   POWER_SYNC=M       each sync takes so many microseconds
   POWER_MOMENT=P     once there is a file P that says `kill N` or `fail N`: the N-th call since then that makes, writes, syncs
                      or renames something in F kills the program before it is done; or it fails as on a full disk, and each
                      later one too

   Files outside F are synced as ever. */
#define _GNU_SOURCE
#include <dirent.h>
#include <errno.h>
#include <fcntl.h>
#include <limits.h>
#include <pthread.h>
#include <signal.h>
#include <stdarg.h>
#include <stdio.h>
#include <stdlib.h>
#include <string.h>
#include <sys/stat.h>
#include <sys/syscall.h>
#include <time.h>
#include <unistd.h>

enum { MOST_FILES = 256, PIECE = 1 << 16 };

static pthread_mutex_t lock = PTHREAD_MUTEX_INITIALIZER;
static struct { ino_t inode; off_t length; } known[MOST_FILES];
static int files;

static void rest(void) {
    const char *text = getenv("POWER_SYNC");
    long microseconds = text ? atol(text) / 2 : 0;
    struct timespec time = {microseconds / 1000000, microseconds % 1000000 * 1000};
    if (microseconds) nanosleep(&time, NULL);
}

static int is_below(const char *path, const char *folder) {
    size_t length = strlen(folder);
    return strncmp(path, folder, length) == 0 && (path[length] == 0 || path[length] == '/');
}

/* ---- moments */

static int has_failed(const char *path) {
    static long left;
    static char what[8];
    const char *folder = getenv("POWER_FOLDER"), *named = getenv("POWER_MOMENT");
    if (!folder || !named || !is_below(path, folder)) return 0;
    if (access(named, F_OK)) return what[0] = 0;
    if (!what[0]) {
        FILE *told = fopen(named, "r");
        if (!told) abort();
        if (fscanf(told, "%7s %ld", what, &left) != 2) abort();
        fclose(told);
    }
    if (--left > 0) return 0;
    if (!strcmp(what, "kill")) kill(getpid(), SIGKILL);
    errno = ENOSPC;
    return 1;
}

static int file_has_failed(int file) {
    char own[64], path[PATH_MAX];
    snprintf(own, sizeof own, "/proc/self/fd/%d", file);
    ssize_t length = getenv("POWER_MOMENT") ? readlink(own, path, sizeof path - 1) : -1;
    if (length < 0) return 0;
    path[length] = 0;
    return has_failed(path);
}

int open(const char *path, int flags, ...) {
    va_list more;
    va_start(more, flags);
    mode_t mode = va_arg(more, mode_t);
    va_end(more);
    if (flags & O_CREAT && has_failed(path)) return -1;
    return (int)syscall(SYS_open, path, flags, mode);
}

ssize_t pwrite(int file, const void *bytes, size_t count, off_t at) {
    return file_has_failed(file) ? -1 : syscall(SYS_pwrite64, file, bytes, count, at);
}

int rename(const char *from, const char *to) {
    return has_failed(to) ? -1 : (int)syscall(SYS_rename, from, to);
}

/* ---- what lasts */

/* Where the bytes of a file stood that were copied last: all before that place are copied. */
static off_t *length_of(ino_t inode) {
    for (int at = 0; at < files; at++)
        if (known[at].inode == inode) return &known[at].length;
    if (files == MOST_FILES) abort();
    known[files].inode = inode, known[files].length = 0;
    return &known[files++].length;
}

static void copy(int file, const char *kept, struct stat *about) {
    char path[PATH_MAX], own[64], piece[PIECE];
    snprintf(path, sizeof path, "%s/inode-%llu", kept, (unsigned long long)about->st_ino);
    snprintf(own, sizeof own, "/proc/self/fd/%d", file);
    int from = (int)syscall(SYS_open, own, O_RDONLY), to = (int)syscall(SYS_open, path, O_RDWR | O_CREAT, 0644);
    off_t *length = length_of(about->st_ino), at = *length < about->st_size ? *length : 0;
    if (from < 0 || to < 0) abort();
    for (ssize_t count; at < about->st_size && (count = pread(from, piece, PIECE, at)) > 0; at += count)
        if (syscall(SYS_pwrite64, to, piece, (size_t)count, at) != count) abort();
    if (ftruncate(to, about->st_size)) abort();
    *length = about->st_size;
    syscall(SYS_close, from), syscall(SYS_close, to);
}

static void copy_names(const char *folder, const char *kept) {
    char path[PATH_MAX], made[PATH_MAX];
    snprintf(path, sizeof path, "%s/names", kept);
    snprintf(made, sizeof made, "%s/names.new", kept);
    DIR *names = opendir(folder);
    FILE *out = fopen(made, "w");
    if (!names || !out) abort();
    for (struct dirent *name; (name = readdir(names));)
        if (name->d_name[0] != '.') fprintf(out, "%llu %s\n", (unsigned long long)name->d_ino, name->d_name);
    fclose(out), closedir(names);
    if (syscall(SYS_rename, made, path)) abort();
}

static int synced(int file, long call) {
    const char *folder = getenv("POWER_FOLDER"), *kept = getenv("POWER_KEPT");
    char own[64], path[PATH_MAX];
    struct stat about;
    snprintf(own, sizeof own, "/proc/self/fd/%d", file);
    ssize_t length = readlink(own, path, sizeof path - 1);
    if (!folder || !kept || length < 0 || fstat(file, &about)) return (int)syscall(call, file);
    path[length] = 0;
    if (!is_below(path, folder)) return (int)syscall(call, file);
    rest();
    pthread_mutex_lock(&lock);
    if (S_ISDIR(about.st_mode)) copy_names(folder, kept);
    else copy(file, kept, &about);
    pthread_mutex_unlock(&lock);
    rest();
    return 0;
}

int fsync(int file) { return file_has_failed(file) ? -1 : synced(file, SYS_fsync); }
int fdatasync(int file) { return file_has_failed(file) ? -1 : synced(file, SYS_fdatasync); }
