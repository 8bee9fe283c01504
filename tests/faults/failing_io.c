/* A library to preload: the program's reads of standard input give at most READ_STEP bytes each, and the Nth read, N being
   the value of FAILING_READ, fails; so does the Nth write to standard output, N being the value of FAILING_WRITE. Of links
   each call takes or gives at most LINK_STEP bytes, the Nth receipt fails, N being FAILING_RECV, and the Nth sending,
   N being FAILING_SEND. */
#define _GNU_SOURCE
#include <dlfcn.h>
#include <errno.h>
#include <stdlib.h>
#include <sys/socket.h>
#include <unistd.h>

static long number_in(const char *name) {
    const char *text = getenv(name);
    return text ? atol(text) : 0;
}

static int is_its_turn(const char *name, long *count) {
    *count += 1;
    return *count == number_in(name);
}

static size_t at_most(const char *name, size_t size) {
    long step = number_in(name);
    return step > 0 && (size_t)step < size ? (size_t)step : size;
}

ssize_t read(int file, void *bytes, size_t size) {
    static long count;
    ssize_t (*real)(int, void *, size_t) = (ssize_t (*)(int, void *, size_t))dlsym(RTLD_NEXT, "read");
    if (file != 0) return real(file, bytes, size);
    if (is_its_turn("FAILING_READ", &count)) {
        errno = EIO;
        return -1;
    }
    return real(file, bytes, at_most("READ_STEP", size));
}

ssize_t write(int file, const void *bytes, size_t size) {
    static long count;
    ssize_t (*real)(int, const void *, size_t) = (ssize_t (*)(int, const void *, size_t))dlsym(RTLD_NEXT, "write");
    if (file == 1 && is_its_turn("FAILING_WRITE", &count)) {
        errno = EIO;
        return -1;
    }
    return real(file, bytes, size);
}

ssize_t recv(int link, void *bytes, size_t size, int flags) {
    static long count;
    ssize_t (*real)(int, void *, size_t, int) = (ssize_t (*)(int, void *, size_t, int))dlsym(RTLD_NEXT, "recv");
    if (is_its_turn("FAILING_RECV", &count)) {
        errno = ECONNRESET;
        return -1;
    }
    return real(link, bytes, at_most("LINK_STEP", size), flags);
}

ssize_t send(int link, const void *bytes, size_t size, int flags) {
    static long count;
    ssize_t (*real)(int, const void *, size_t, int) = (ssize_t (*)(int, const void *, size_t, int))dlsym(RTLD_NEXT, "send");
    if (is_its_turn("FAILING_SEND", &count)) {
        errno = EPIPE;
        return -1;
    }
    return real(link, bytes, at_most("LINK_STEP", size), flags);
}
