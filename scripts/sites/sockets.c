/* Preloaded into a program, this writes a line to the file that the variable SOCKETS names for each socket that it makes, each
   address to which it binds one, and each at which it listens. */
#define _GNU_SOURCE
#include <arpa/inet.h>
#include <fcntl.h>
#include <netinet/in.h>
#include <stdio.h>
#include <stdlib.h>
#include <string.h>
#include <sys/socket.h>
#include <sys/syscall.h>
#include <unistd.h>

static void note(const char *what, const char *where) {
    const char *path = getenv("SOCKETS");
    int file = path ? open(path, O_WRONLY | O_CREAT | O_APPEND | O_CLOEXEC, 0600) : -1;
    char line[200];
    int length = snprintf(line, sizeof line, "%s %s\n", what, where);
    if (file < 0 || write(file, line, (size_t)length) != length) abort();
    close(file);
}

static void note_address(const char *what, const struct sockaddr *address) {
    char name[INET6_ADDRSTRLEN] = "", where[100];
    if (address->sa_family == AF_INET) {
        const struct sockaddr_in *four = (const void *)address;
        inet_ntop(AF_INET, &four->sin_addr, name, sizeof name);
        snprintf(where, sizeof where, "%s:%d", name, ntohs(four->sin_port));
    } else if (address->sa_family == AF_INET6) {
        const struct sockaddr_in6 *six = (const void *)address;
        inet_ntop(AF_INET6, &six->sin6_addr, name, sizeof name);
        snprintf(where, sizeof where, "[%s]:%d", name, ntohs(six->sin6_port));
    } else {
        snprintf(where, sizeof where, "family %d", address->sa_family);
    }
    note(what, where);
}

int socket(int family, int kind, int protocol) {
    char where[100];
    snprintf(where, sizeof where, "family %d", family);
    note("socket", where);
    return (int)syscall(SYS_socket, family, kind, protocol);
}

int bind(int file, const struct sockaddr *address, socklen_t length) {
    note_address("bind", address);
    return (int)syscall(SYS_bind, file, address, length);
}

/* A socket that listens unbound gets a port of every address. */
int listen(int file, int most) {
    int answer = (int)syscall(SYS_listen, file, most);
    struct sockaddr_storage own;
    socklen_t length = sizeof own;
    memset(&own, 0, sizeof own);
    if (syscall(SYS_getsockname, file, &own, &length) == 0) note_address("listen", (const void *)&own);
    return answer;
}
