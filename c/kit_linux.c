/* The C functions that `norbd` calls besides those of the C library. The kit has them compiled for
   x86-64 alone; these are written from what crates `libc` and `os` of the kit declare, for another
   Linux with glibc. `tools/release` compiles them. No proof speaks of this file: each function
   must do what its line says.
   A slice is passed as its address and its length. -1 is an error with errno, if nothing else is
   said. */
#define _GNU_SOURCE
#include <errno.h>
#include <netdb.h>
#include <stdbool.h>
#include <stdint.h>
#include <stdlib.h>
#include <string.h>
#include <sys/ioctl.h>
#include <sys/socket.h>
#include <sys/uio.h>
#include <unistd.h>

struct tried { bool ok; void *at; }; /* `at` is never null */
struct address { uint8_t bytes[128]; uint32_t len; };

static char nothing[16];

static struct tried tried(void *at) {
    return (struct tried){at != NULL, at ? at : nothing};
}

/* New memory of `size` bytes. `alignment` divides 16, as malloc's does on 64 bits. */
struct tried rattle_alloc(size_t size, size_t alignment) {
    return tried(malloc(size ? size : alignment));
}

/* The first `kept` bytes in a block of `size`; where it fails the old block stays. */
struct tried rattle_realloc(void *at, size_t kept, size_t size, size_t alignment) {
    (void)kept;
    return tried(realloc(at, size ? size : alignment));
}

void rattle_dealloc(void *at) {
    free(at);
}

int rattle_errno(void) {
    return errno;
}

void rattle_set_errno(int error) {
    errno = error;
}

/* Puts the text at the start of `to`, without its end, and returns its length; -1 where there is
   no text, -2 where it doesn't fit, and then `to` is full. */
static ssize_t put(const char *text, uint8_t *to, size_t room) {
    if (!text)
        return -1;
    size_t length = strlen(text);
    memcpy(to, text, length < room ? length : room);
    return length <= room ? (ssize_t)length : -2;
}

static size_t count;
static char **arguments;

/* glibc hands main's arguments to each constructor. */
__attribute__((constructor)) static void keep_arguments(int argc, char **argv) {
    count = argc;
    arguments = argv;
}

size_t rattle_arg_count(void) {
    return count;
}

ssize_t rattle_arg(size_t number, uint8_t *to, size_t room) {
    return put(number < count ? arguments[number] : NULL, to, room);
}

ssize_t rattle_env(const char *name, uint8_t *to, size_t room) {
    return put(getenv(name), to, room);
}

ssize_t rattle_env_at(size_t number, uint8_t *to, size_t room) {
    size_t at = 0;
    while (environ[at] && at < number)
        at++;
    return put(environ[at], to, room);
}

int rattle_set_nonblocking(int file, bool on) {
    int value = on;
    return ioctl(file, FIONBIO, &value);
}

/* As writev of four slices; of a socket as sendmsg, without SIGPIPE. */
ssize_t rattle_write_parts(int file, bool is_socket, void *a, size_t a_len, void *b, size_t b_len,
                           void *c, size_t c_len, void *d, size_t d_len) {
    struct iovec parts[4] = {{a, a_len}, {b, b_len}, {c, c_len}, {d, d_len}};
    struct msghdr message = {.msg_iov = parts, .msg_iovlen = 4};
    return is_socket ? sendmsg(file, &message, MSG_NOSIGNAL) : writev(file, parts, 4);
}

/* Puts the first IPv4 and IPv6 addresses of the host at the start of `found`, and returns how
   many; getaddrinfo's error, which is negative, where it has none. */
ssize_t rattle_lookup_host(const char *name, struct address *found, size_t room) {
    struct addrinfo hints = {.ai_socktype = SOCK_STREAM}, *list;
    int error = getaddrinfo(name, NULL, &hints, &list);
    size_t put = 0;
    if (error)
        return error;
    for (struct addrinfo *it = list; it && put < room; it = it->ai_next) {
        if (it->ai_family != AF_INET && it->ai_family != AF_INET6)
            continue;
        memcpy(found[put].bytes, it->ai_addr, it->ai_addrlen);
        found[put++].len = it->ai_addrlen;
    }
    freeaddrinfo(list);
    return put;
}
