/* Preloaded into a program, this makes each sync of a file so many microseconds longer as the variable SLOW says, as it is
   on rented disks. */
#define _GNU_SOURCE
#include <stdlib.h>
#include <sys/syscall.h>
#include <time.h>
#include <unistd.h>

static int slowly(int answer) {
    const char *text = getenv("SLOW");
    long microseconds = text ? atol(text) : 0;
    struct timespec time = {microseconds / 1000000, microseconds % 1000000 * 1000};
    while (nanosleep(&time, &time)) {}
    return answer;
}

int fsync(int file) { return slowly((int)syscall(SYS_fsync, file)); }
int fdatasync(int file) { return slowly((int)syscall(SYS_fdatasync, file)); }
