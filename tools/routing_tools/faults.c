/* Stands before the C library in a process (LD_PRELOAD), counts its calls by kind, and makes one of them fail.
 *
 * FAULTS_COUNTS names a file of COUNTS numbers of 64 bits, which the process shares: how many calls of each kind came, and
 * last how often a call was made to fail. FAULTS_KIND and FAULTS_PLACE say which call fails: the so-manieth of that kind, from
 * 1; place 0 is none. FAULTS_HOW says how: a number of errno; `short`, with one byte in place of all; `signal N`, which raises
 * the signal N before the call; `all N`, with the number N at that call and at each later one of the kind.
 * The kinds stand in `Kind`, in the order in which tools/routing_tools/faults.py has them. */
#define _GNU_SOURCE
#include <dlfcn.h>
#include <errno.h>
#include <fcntl.h>
#include <netdb.h>
#include <signal.h>
#include <stdint.h>
#include <stdlib.h>
#include <string.h>
#include <sys/mman.h>
#include <sys/socket.h>
#include <sys/stat.h>
#include <sys/uio.h>
#include <unistd.h>

enum Kind { ALLOCATION, LOOKUP_ALLOCATION, READ, WRITE, NOTE, LOOKUP, SOCKET, DIAL, SEND, RECEIVE, KINDS };
enum { FAILED = KINDS, COUNTS };

static volatile uint64_t *counts;
static uint64_t wanted_place;
static int wanted_kind = -1, number, is_short, is_signal, is_all, is_looking;

extern void *__libc_malloc(size_t);
extern void *__libc_calloc(size_t, size_t);
extern void *__libc_realloc(void *, size_t);
extern void *__libc_memalign(size_t, size_t);

__attribute__((constructor)) static void begin(void) {
    const char *path = getenv("FAULTS_COUNTS"), *kind = getenv("FAULTS_KIND"), *place = getenv("FAULTS_PLACE"), *how = getenv("FAULTS_HOW");
    int file = path ? open(path, O_RDWR | O_CLOEXEC) : -1;
    if (file < 0)
        return;
    void *shared = mmap(NULL, COUNTS * sizeof *counts, PROT_READ | PROT_WRITE, MAP_SHARED, file, 0);
    close(file);
    if (shared == MAP_FAILED)
        return;
    wanted_place = place ? strtoull(place, NULL, 10) : 0;
    if (how) {
        is_short = !strcmp(how, "short");
        is_signal = !strncmp(how, "signal ", 7);
        is_all = !strncmp(how, "all ", 4);
        number = atoi(how + (is_signal ? 7 : is_all ? 4 : 0));
    }
    wanted_kind = kind ? atoi(kind) : -1;
    counts = shared;
}

/* Counts a call, and answers whether it is the one that is to fail. */
static int fails(enum Kind kind) {
    if (!counts)
        return 0;
    uint64_t place = ++counts[kind];
    int now = (int)kind == wanted_kind && wanted_place && (place == wanted_place || (is_all && place > wanted_place));
    if (!now)
        return 0;
    counts[FAILED]++;
    if (is_signal) {
        raise(number);
        return 0;
    }
    errno = number;
    return 1;
}

/* The kind of a transfer by its place among the files. */
static enum Kind of_file(int file, enum Kind standard, enum Kind linked) {
    struct stat status;
    if (file == STDERR_FILENO)
        return NOTE;
    return file > STDERR_FILENO && !fstat(file, &status) && S_ISSOCK(status.st_mode) ? linked : standard;
}

static void *next(const char *name) { return dlsym(RTLD_NEXT, name); }

/* The C library takes memory of its own while it looks up a host. */
static int refuses(void) { return fails(is_looking ? LOOKUP_ALLOCATION : ALLOCATION); }

void *malloc(size_t size) { return refuses() ? NULL : __libc_malloc(size); }
void *calloc(size_t count, size_t size) { return refuses() ? NULL : __libc_calloc(count, size); }
void *realloc(void *block, size_t size) { return refuses() ? NULL : __libc_realloc(block, size); }
void *aligned_alloc(size_t align, size_t size) { return refuses() ? NULL : __libc_memalign(align, size); }
void *memalign(size_t align, size_t size) { return refuses() ? NULL : __libc_memalign(align, size); }

int posix_memalign(void **block, size_t align, size_t size) {
    void *made = refuses() ? NULL : __libc_memalign(align, size);
    if (!made)
        return ENOMEM;
    *block = made;
    return 0;
}

/* A transfer of bytes: the call of the library, of one byte or of none where this one is to fail. */
#define TRANSFER(kind, size, call, one)                    \
    do {                                                   \
        if (!fails(kind))                                  \
            return call;                                   \
        if (is_short && (size) > 1)                        \
            return one;                                    \
        return is_short ? (call) : -1;                     \
    } while (0)

ssize_t read(int file, void *bytes, size_t size) {
    static ssize_t (*real)(int, void *, size_t);
    if (!real)
        real = next("read");
    TRANSFER(of_file(file, READ, RECEIVE), size, real(file, bytes, size), real(file, bytes, 1));
}

ssize_t recv(int file, void *bytes, size_t size, int flags) {
    static ssize_t (*real)(int, void *, size_t, int);
    if (!real)
        real = next("recv");
    TRANSFER(RECEIVE, size, real(file, bytes, size, flags), real(file, bytes, 1, flags));
}

ssize_t write(int file, const void *bytes, size_t size) {
    static ssize_t (*real)(int, const void *, size_t);
    if (!real)
        real = next("write");
    TRANSFER(of_file(file, WRITE, SEND), size, real(file, bytes, size), real(file, bytes, 1));
}

ssize_t send(int file, const void *bytes, size_t size, int flags) {
    static ssize_t (*real)(int, const void *, size_t, int);
    if (!real)
        real = next("send");
    TRANSFER(SEND, size, real(file, bytes, size, flags), real(file, bytes, 1, flags));
}

ssize_t writev(int file, const struct iovec *parts, int count) {
    static ssize_t (*real)(int, const struct iovec *, int);
    if (!real)
        real = next("writev");
    struct iovec one = {count > 0 ? parts->iov_base : NULL, 1};
    TRANSFER(of_file(file, WRITE, SEND), count > 0 ? parts->iov_len : 0, real(file, parts, count), real(file, &one, 1));
}

ssize_t sendmsg(int file, const struct msghdr *message, int flags) {
    static ssize_t (*real)(int, const struct msghdr *, int);
    if (!real)
        real = next("sendmsg");
    size_t size = message->msg_iovlen ? message->msg_iov->iov_len : 0;
    struct iovec part = {size ? message->msg_iov->iov_base : NULL, 1};
    struct msghdr one = *message;
    one.msg_iov = &part;
    one.msg_iovlen = 1;
    TRANSFER(SEND, size, real(file, message, flags), real(file, &one, flags));
}

int socket(int domain, int type, int protocol) {
    static int (*real)(int, int, int);
    if (!real)
        real = next("socket");
    return fails(SOCKET) ? -1 : real(domain, type, protocol);
}

int connect(int file, const struct sockaddr *address, socklen_t size) {
    static int (*real)(int, const struct sockaddr *, socklen_t);
    if (!real)
        real = next("connect");
    return fails(DIAL) ? -1 : real(file, address, size);
}

int getaddrinfo(const char *host, const char *port, const struct addrinfo *hints, struct addrinfo **found) {
    static int (*real)(const char *, const char *, const struct addrinfo *, struct addrinfo **);
    if (!real)
        real = next("getaddrinfo");
    if (fails(LOOKUP))
        return number;
    is_looking = 1;
    int status = real(host, port, hints, found);
    is_looking = 0;
    return status;
}
