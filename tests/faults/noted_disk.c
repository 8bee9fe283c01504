/* A library to preload: it notes in the file DISK_NOTES what processes do to the files of the folder DISK_FOLDER, in the order in which they do it:
   what is written, cut off, named and brought to the disk, and what is sent over sockets. Of these notes tests/lib/noted_disk.py makes what a disk may
   have that lost its power after any of them. Nothing is brought to the disk in earnest.

   Of the calls of a process that write, cut or sync there, but to `acknowledged`, the one of number DISK_AT does as DISK_HOW says:
   end     the process is killed before it
   half    it writes half, and is killed; of another call, before it
   behind  the process is killed once it is done
   full    it writes half, as far as it writes; that one and all behind it fail with ENOSPC, as long as DISK_HOW stays
   fault   it fails with EIO, that one alone; what a sync was to bring to the disk is lost, and a later sync doesn't bring it there
   Of a file whose name ends with DISK_LIES a sync does nothing. With DISK_SLOW each third sync takes so many milliseconds.

   A note is a head, the name and the data: how long these are, what was done, by which process, and two numbers, the first of which is the file's. A
   change is noted before it is made, so whoever sees it, and syncs, is noted behind it. */
#define _GNU_SOURCE
#include <errno.h>
#include <fcntl.h>
#include <limits.h>
#include <poll.h>
#include <signal.h>
#include <stdarg.h>
#include <stdint.h>
#include <stdlib.h>
#include <string.h>
#include <sys/socket.h>
#include <sys/stat.h>
#include <sys/syscall.h>
#include <sys/uio.h>
#include <unistd.h>

enum { WRITTEN = 'w', CUT = 'c', SYNCING = 's', SYNCED = 'd', NAMING = 'n', NAMED = 'o', MOVED = 'm', REMOVED = 'r', LINKED = 'l', SENT = 't' };

struct head {
    uint32_t name, data, what, process;
    uint64_t first, second;
};

/* One write of the whole note behind the others, which the system does in one go. */
static void note(char what, uint64_t first, uint64_t second, const char *name, const void *data, size_t size) {
    static int file = -1;
    const char *path = getenv("DISK_NOTES");
    int before = errno;
    if (!path) return;
    if (file < 0) file = (int)syscall(SYS_openat, AT_FDCWD, path, O_WRONLY | O_APPEND | O_CREAT | O_CLOEXEC, 0600);
    struct head head = {(uint32_t)strlen(name), (uint32_t)size, (uint32_t)what, (uint32_t)getpid(), first, second};
    struct iovec parts[] = {{&head, sizeof head}, {(void *)name, head.name}, {(void *)data, size}};
    if (syscall(SYS_writev, file, parts, 3) != (long)(sizeof head + head.name + size)) abort();
    errno = before;
}

/* The name in the folder of a path, or nothing where it leads elsewhere; "" is the folder. */
static const char *inside(const char *path) {
    const char *folder = getenv("DISK_FOLDER");
    size_t size = folder ? strlen(folder) : 0;
    if (!size || strncmp(path, folder, size)) return NULL;
    if (!path[size]) return "";
    return path[size] == '/' ? path + size + 1 : NULL;
}

/* The same of an open file, whose number among files comes back too. */
static const char *name_of(int file, uint64_t *number) {
    static __thread char path[PATH_MAX];
    char link[32] = "/proc/self/fd/";
    struct stat found;
    char *digit = link + 14 + (file > 9) + (file > 99) + (file > 999);
    if (!getenv("DISK_FOLDER") || file < 0 || file > 9999) return NULL;
    for (int left = file; digit >= link + 14; left /= 10) *digit-- = (char)('0' + left % 10);
    long size = syscall(SYS_readlinkat, AT_FDCWD, link, path, sizeof path - 1);
    if (size < 0 || fstat(file, &found)) return NULL;
    path[size] = 0;
    *number = found.st_ino;
    return inside(path);
}

/* ------------------------------------------------------------ calls that fail */

enum turn { OTHERS, ENDS, HALF, BEHIND, FULL, FAULT };

static _Noreturn void end(void) {
    for (;;) kill(getpid(), SIGKILL);
}

static enum turn turn_of(const char *name) {
    static long count;
    static const char *const names[] = {"", "end", "half", "behind", "full", "fault"};
    const char *at = getenv("DISK_AT"), *how = getenv("DISK_HOW");
    long number = at ? atol(at) : 0;
    if (!number || !strcmp(name, "acknowledged")) return OTHERS;
    long turns = __atomic_add_fetch(&count, 1, __ATOMIC_SEQ_CST);
    if (!how || turns < number) return OTHERS;
    for (int turn = ENDS; turn <= FAULT; turn++)
        if (!strcmp(how, names[turn])) return turns == number || turn == FULL ? (enum turn)turn : OTHERS;
    return OTHERS;
}

static int failed(int number) {
    errno = number;
    return -1;
}

/* ------------------------------------------------------------ writes and cuts */

/* At a place, or where the file is. */
static ssize_t put(int file, const void *bytes, size_t size, off_t place) {
    uint64_t number;
    const char *name = name_of(file, &number);
    off_t at = place >= 0 ? place : (fcntl(file, F_GETFL) & O_APPEND) ? lseek(file, 0, SEEK_END) : lseek(file, 0, SEEK_CUR);
    note(WRITTEN, number, (uint64_t)at, name ? name : "", bytes, size);
    return place >= 0 ? syscall(SYS_pwrite64, file, bytes, size, place) : syscall(SYS_write, file, bytes, size);
}

/* What a disk takes on which there is no more room. */
static ssize_t half_put(int file, const void *bytes, size_t size, off_t place) {
    static int is_full;
    if (is_full || size < 2) return failed(ENOSPC);
    is_full = 1;
    return put(file, bytes, size / 2, place);
}

static ssize_t put_by_turn(int file, const char *name, const void *bytes, size_t size, off_t place) {
    switch (turn_of(name)) {
    case ENDS: end();
    case HALF: put(file, bytes, size / 2, place); end();
    case BEHIND: put(file, bytes, size, place); end();
    case FULL: return half_put(file, bytes, size, place);
    case FAULT: return failed(EIO);
    default: return put(file, bytes, size, place);
    }
}

static int is_socket(int file) {
    int kind;
    socklen_t size = sizeof kind;
    int before = errno, is = !getsockopt(file, SOL_SOCKET, SO_TYPE, &kind, &size);
    errno = before;
    return is;
}

/* All of it, so that it is noted as it is sent. */
static ssize_t sent(int link, const void *bytes, size_t size, int flags) {
    note(SENT, (uint64_t)link, 0, "", bytes, size);
    for (size_t done = 0; done < size;) {
        ssize_t some = syscall(SYS_sendto, link, (const char *)bytes + done, size - done, flags | MSG_NOSIGNAL, NULL, 0);
        struct pollfd waits = {link, POLLOUT, 0};
        if (some > 0) done += (size_t)some;
        else if (some < 0 && errno != EAGAIN && errno != EINTR) return -1;
        else poll(&waits, 1, 1000);
    }
    return (ssize_t)size;
}

ssize_t write(int file, const void *bytes, size_t size) {
    uint64_t number;
    const char *name = name_of(file, &number);
    if (name) return put_by_turn(file, name, bytes, size, -1);
    return getenv("DISK_NOTES") && is_socket(file) ? sent(file, bytes, size, 0) : syscall(SYS_write, file, bytes, size);
}

ssize_t pwrite(int file, const void *bytes, size_t size, off_t place) {
    uint64_t number;
    const char *name = name_of(file, &number);
    return name ? put_by_turn(file, name, bytes, size, place) : syscall(SYS_pwrite64, file, bytes, size, place);
}

ssize_t pwrite64(int file, const void *bytes, size_t size, off64_t place) {
    return pwrite(file, bytes, size, place);
}

ssize_t send(int link, const void *bytes, size_t size, int flags) {
    return getenv("DISK_NOTES") ? sent(link, bytes, size, flags) : syscall(SYS_sendto, link, bytes, size, flags, NULL, 0);
}

int connect(int link, const struct sockaddr *to, socklen_t size) {
    if (getenv("DISK_NOTES")) note(LINKED, (uint64_t)link, 0, "", "", 0);
    return (int)syscall(SYS_connect, link, to, size);
}

static int cut(int file, off_t size, uint64_t number, const char *name) {
    note(CUT, number, (uint64_t)size, name, "", 0);
    return (int)syscall(SYS_ftruncate, file, size);
}

/* A file is made shorter also where it is full. */
int ftruncate(int file, off_t size) {
    uint64_t number;
    const char *name = name_of(file, &number);
    if (!name) return (int)syscall(SYS_ftruncate, file, size);
    switch (turn_of(name)) {
    case ENDS:
    case HALF: end();
    case BEHIND: cut(file, size, number, name); end();
    case FAULT: return failed(EIO);
    default: return cut(file, size, number, name);
    }
}

int ftruncate64(int file, off64_t size) {
    return ftruncate(file, size);
}

/* ------------------------------------------------------------ bringing it to the disk */

static int lies_of(const char *name) {
    const char *end = getenv("DISK_LIES");
    size_t size = end ? strlen(end) : 0;
    return end && strlen(name) >= size && !strcmp(name + strlen(name) - size, end);
}

static void wait_some(void) {
    static int count;
    const char *slow = getenv("DISK_SLOW");
    if (slow && ++count % 3 == 0) poll(NULL, 0, atoi(slow));
}

static int synced(uint64_t number, const char *name, int fault) {
    if (!fault && lies_of(name)) return 0;
    note(SYNCING, number, 0, name, "", 0);
    wait_some();
    note(SYNCED, number, (uint64_t)fault, name, "", 0);
    return fault ? failed(fault) : 0;
}

int fdatasync(int file) {
    uint64_t number;
    const char *name = name_of(file, &number);
    if (!name) return (int)syscall(SYS_fdatasync, file);
    switch (turn_of(name)) {
    case ENDS:
    case HALF: end();
    case BEHIND: synced(number, name, 0); end();
    case FULL: return synced(number, name, ENOSPC);
    case FAULT: return synced(number, name, EIO);
    default: return synced(number, name, 0);
    }
}

int fsync(int file) {
    return fdatasync(file);
}

/* ------------------------------------------------------------ names */

static int opened(int folder, const char *path, int flags, mode_t mode) {
    const char *name = flags & O_CREAT ? inside(path) : NULL;
    uint64_t number;
    int is_new = name && faccessat(folder, path, F_OK, 0) < 0;
    if (is_new) note(NAMING, 0, 0, name, "", 0);
    int file = (int)syscall(SYS_openat, folder, path, flags, mode);
    if (is_new && file >= 0 && (name = name_of(file, &number))) note(NAMED, number, 0, name, "", 0);
    return file;
}

static mode_t mode_in(int flags, va_list more) {
    return flags & (O_CREAT | O_TMPFILE) ? va_arg(more, mode_t) : 0;
}

int open(const char *path, int flags, ...) {
    va_list more;
    va_start(more, flags);
    mode_t mode = mode_in(flags, more);
    va_end(more);
    return opened(AT_FDCWD, path, flags, mode);
}

int open64(const char *path, int flags, ...) {
    va_list more;
    va_start(more, flags);
    mode_t mode = mode_in(flags, more);
    va_end(more);
    return opened(AT_FDCWD, path, flags | O_LARGEFILE, mode);
}

int rename(const char *from, const char *to) {
    const char *name = inside(from), *other = inside(to);
    if (name && other) note(MOVED, 0, 0, name, other, strlen(other));
    return (int)syscall(SYS_renameat2, AT_FDCWD, from, AT_FDCWD, to, 0);
}

int unlink(const char *path) {
    const char *name = inside(path);
    if (name && faccessat(AT_FDCWD, path, F_OK, 0) == 0) note(REMOVED, 0, 0, name, "", 0);
    return (int)syscall(SYS_unlinkat, AT_FDCWD, path, 0);
}
