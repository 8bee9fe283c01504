/* Many connections to one server over the loopback, by one thread and epoll: each reply is checked, and one line of JSON says what it took.

   many_links WORK SERVER PORT PID LINKS ACTIVE BATCH SECONDS KEYS TIME

   WORK: get, one key after the other of KEYS; change, a row under a new key each; wait, all LINKS wait for a change, and one more makes it, again and
   again (a node: Await and a commit with its mark; redis: SUBSCRIBE and PUBLISH). SERVER: node, a log of id 7 and one stream whose last entry has number
   and time TIME, or redis, whose keys have seven digits. LINKS are opened, and each asks once; then ACTIVE of them have a batch of BATCH requests on its way at
   any time, by turns where these are fewer. PID: the server, whose processor time is told as all its threads took it. Times are as this client sees them,
   from the first byte of a batch to its last reply. */
#define _GNU_SOURCE
#include <arpa/inet.h>
#include <dirent.h>
#include <errno.h>
#include <fcntl.h>
#include <netinet/tcp.h>
#include <stdint.h>
#include <stdio.h>
#include <stdlib.h>
#include <string.h>
#include <sys/epoll.h>
#include <sys/resource.h>
#include <sys/socket.h>
#include <time.h>
#include <unistd.h>

enum { BODY = 64, MOST_BATCH = 1024, MOST_REQUEST = 256, MOST_REPLY = 128, MOST_TIMES = 1 << 22, EVENTS = 1024, PATIENCE = 20000 };

/* What is sent and got: a request is a template in which a key, and of a node's change a number and a time, are put. */
struct kind {
    char request[MOST_REQUEST];
    int request_len, reply_len;
    int is_redis, is_change;
};

struct link {
    int file, busy, got, held;
    uint64_t first, start;
    char kept[MOST_REPLY];
};

static struct kind kind;
static uint64_t keys, last_time, next_request, wrong;
static int batch, poller;
static uint32_t *times, times_kept;

static uint64_t now(void) {
    struct timespec it;
    clock_gettime(CLOCK_MONOTONIC, &it);
    return it.tv_sec * 1000000000ull + it.tv_nsec;
}

static void give_up(const char *why) {
    perror(why);
    exit(1);
}

/* Nanoseconds of a processor that all threads of a process took so far. */
static double worked(int pid) {
    char path[300];
    double sum = 0;
    snprintf(path, sizeof path, "/proc/%d/task", pid);
    DIR *folder = opendir(path);
    for (struct dirent *it; folder && (it = readdir(folder));) {
        unsigned long long each;
        snprintf(path, sizeof path, "/proc/%d/task/%.20s/schedstat", pid, it->d_name);
        FILE *file = it->d_name[0] == '.' ? NULL : fopen(path, "r");
        if (!file) continue;
        if (fscanf(file, "%llu", &each) == 1) sum += each;
        fclose(file);
    }
    if (folder) closedir(folder);
    return sum;
}

static long resident(int pid) {
    char path[64];
    long pages = 0;
    snprintf(path, sizeof path, "/proc/%d/statm", pid);
    FILE *file = fopen(path, "r");
    if (file && fscanf(file, "%*s %ld", &pages) != 1) pages = 0;
    if (file) fclose(file);
    return pages * sysconf(_SC_PAGESIZE);
}

static void put(char *to, uint64_t number, int bytes) {
    for (int at = 0; at < bytes; at++) to[at] = number >> 8 * (bytes - 1 - at);
}

static void put_digits(char *to, uint64_t number) {
    for (int at = 6; at >= 0; at--, number /= 10) to[at] = '0' + number % 10;
}

/* An entry of log 7, stream 1 at a time, with one row of table 1, as docs/FORMATS.md has it; gives its length. */
static int put_entry(char *to, uint64_t at, uint64_t key) {
    put(to, 48 + BODY, 4), put(to + 4, 0x0101, 2), put(to + 6, 7, 8), put(to + 14, 1, 2), put(to + 16, at, 8), put(to + 24, at, 8);
    put(to + 32, 0, 2), put(to + 34, 1, 2), put(to + 36, 1, 2), put(to + 38, key, 8), put(to + 46, 9, 4), put(to + 50, BODY, 2);
    memset(to + 52, 'x', BODY);
    return 52 + BODY;
}

static int put_mark(char *to, uint64_t at) {
    put(to, 28, 4), put(to + 4, 0x0102, 2), put(to + 6, 7, 8), put(to + 14, 1, 2), put(to + 16, at, 8), put(to + 24, at, 8);
    return 32;
}

/* What comes before the items of a request, once their number and bytes are known. */
static void put_items(char *to, int count, int bytes) {
    put(to, 6 + bytes, 4), put(to + 4, 0x0110, 2), put(to + 6, count, 4);
}

static void choose_kind(const char *work, const char *server) {
    kind.is_redis = !strcmp(server, "redis");
    kind.is_change = !strcmp(work, "change");
    char *to = kind.request;
    if (kind.is_redis) {
        char body[BODY + 1];
        memset(body, 'x', BODY), body[BODY] = 0;
        kind.request_len = kind.is_change ? sprintf(to, "*3\r\n$3\r\nSET\r\n$7\r\n0000000\r\n$%d\r\n%s\r\n", BODY, body) : sprintf(to, "*2\r\n$3\r\nGET\r\n$7\r\n0000000\r\n");
        kind.reply_len = kind.is_change ? 5 : 7 + BODY;
    } else if (kind.is_change) {
        int bytes = put_entry(to + 10, 1, 1);
        put_items(to, 1, bytes);
        kind.request_len = 10 + bytes, kind.reply_len = 14;
    } else {
        put(to, 21, 4), put(to + 4, 0x0114, 2), put(to + 6, last_time, 8), put(to + 14, 1, 1), put(to + 15, 1, 2);
        kind.request_len = 25, kind.reply_len = 14 + BODY;
    }
}

/* Which key a request is about: of Gets each in turn, in no order; of changes new ones. */
static uint64_t key_of(uint64_t request) {
    return kind.is_change ? keys + 1 + request : request * 7919 % keys + 1;
}

static void put_request(char *to, uint64_t request) {
    memcpy(to, kind.request, kind.request_len);
    uint64_t key = key_of(request), at = last_time + 1 + request;
    if (kind.is_redis) put_digits(to + 17, key);
    else if (kind.is_change) put(to + 26, at, 8), put(to + 34, at, 8), put(to + 48, key, 8);
    else put(to + 17, key, 8);
}

/* A row's body ends with its key, in four bytes. */
static void check(const char *reply, uint64_t request) {
    char key[4];
    put(key, key_of(request), 4);
    if (kind.is_change) wrong += kind.is_redis ? memcmp(reply, "+OK\r\n", 5) != 0 : memcmp(reply, "\0\0\0\12\1\40", 6) != 0;
    else if (kind.is_redis) wrong += reply[0] != '$' || memcmp(reply + 5 + BODY - 4, key, 4);
    else wrong += memcmp(reply, "\0\0\0\112\1\43\1\1", 8) || memcmp(reply + 14 + BODY - 4, key, 4);
}

static void send_all(int file, const char *from, size_t left) {
    while (left) {
        ssize_t sent = send(file, from, left, MSG_NOSIGNAL);
        if (sent < 0 && errno == EAGAIN) usleep(20);
        else if (sent < 0) give_up("send");
        else from += sent, left -= sent;
    }
}

static void ask(struct link *it, int count) {
    static char text[MOST_BATCH * MOST_REQUEST];
    char *to = text;
    it->first = next_request, it->got = 0, it->held = 0, it->busy = count;
    for (int at = 0; at < count; at++, to += kind.request_len) put_request(to, next_request++);
    it->start = now();
    send_all(it->file, text, to - text);
}

/* Takes what came; says whether the batch is whole. */
static int take(struct link *it) {
    static char text[1 << 18];
    memcpy(text, it->kept, it->held);
    ssize_t came = recv(it->file, text + it->held, sizeof text - it->held, 0);
    if (came < 0 && errno == EAGAIN) return 0;
    if (came <= 0) give_up("recv");
    int have = it->held + came, at = 0;
    for (; have - at >= kind.reply_len; at += kind.reply_len) check(text + at, it->first + it->got++);
    it->held = have - at;
    memcpy(it->kept, text + at, it->held);
    if (it->got < it->busy) return 0;
    it->busy = 0;
    return 1;
}

static int by_size(const void *one, const void *other) {
    uint32_t a = *(const uint32_t *)one, b = *(const uint32_t *)other;
    return a < b ? -1 : a > b;
}

static void keep_time(uint64_t nanoseconds) {
    if (times_kept < MOST_TIMES) times[times_kept++] = nanoseconds / 100;
}

/* The middle and the last of a hundred of what was kept, in microseconds. */
static void tell_times(void) {
    qsort(times, times_kept, sizeof *times, by_size);
    printf("\"p50_us\": %.1f, \"p99_us\": %.1f, ", times_kept ? times[times_kept / 2] / 10.0 : 0, times_kept ? times[times_kept * 99ul / 100] / 10.0 : 0);
}

static int opened(int port) {
    struct sockaddr_in to = { .sin_family = AF_INET, .sin_port = htons(port), .sin_addr.s_addr = htonl(INADDR_LOOPBACK) };
    int file = socket(AF_INET, SOCK_STREAM, 0), on = 1;
    if (file < 0 || connect(file, (void *)&to, sizeof to)) give_up("connect");
    setsockopt(file, IPPROTO_TCP, TCP_NODELAY, &on, sizeof on);
    return file;
}

static struct link *open_all(int port, int count) {
    struct link *links = calloc(count, sizeof *links);
    for (int at = 0; at < count; at++) {
        links[at].file = opened(port);
        fcntl(links[at].file, F_SETFL, O_NONBLOCK);
        struct epoll_event event = { .events = EPOLLIN, .data.u32 = at };
        if (epoll_ctl(poller, EPOLL_CTL_ADD, links[at].file, &event)) give_up("epoll_ctl");
    }
    return links;
}

static int polled(struct epoll_event *events) {
    int count = epoll_wait(poller, events, EVENTS, PATIENCE);
    if (count <= 0) give_up("no reply");
    return count;
}

/* Each link asks once, so that the server knows it. */
static void meet_all(struct link *links, int count) {
    struct epoll_event events[EVENTS];
    for (int at = 0; at < count; at++) ask(&links[at], 1);
    for (int left = count; left;)
        for (int at = polled(events) - 1; at >= 0; at--) left -= take(&links[events[at].data.u32]);
}

/* Batches of so many links for so long; gives the nanoseconds from the first to the last reply. */
static uint64_t ask_on(struct link *links, int count, int active, double seconds, uint64_t *asked) {
    struct epoll_event events[EVENTS];
    uint64_t start = now(), end = start + seconds * 1e9, last = start;
    for (int at = 0; at < active; at++) ask(&links[at], batch);
    for (int going = active, turn = active % count; going;)
        for (int at = polled(events) - 1; at >= 0; at--) {
            struct link *it = &links[events[at].data.u32];
            if (!take(it)) continue;
            last = now(), keep_time(last - it->start), *asked += batch;
            if (last > end) { going--; continue; }
            for (; active < count && (it = &links[turn])->busy; turn = (turn + 1) % count);
            if (active < count) turn = (turn + 1) % count;
            ask(it, batch);
        }
    return last - start;
}

static void tell_asks(struct link *links, int count, int active, double seconds, int pid, long before) {
    meet_all(links, count);
    double each = (double)(resident(pid) - before) / count, work = worked(pid);
    uint64_t asked = 0, took = ask_on(links, count, active, seconds, &asked);
    work = worked(pid) - work;
    tell_times();
    printf("\"asks\": %lu, \"per_second\": %.0f, \"processor_us\": %.3f, \"bytes_a_link\": %.0f, ", asked, asked * 1e9 / took, work / 1e3 / asked, each);
}

static const char SUBSCRIBE[] = "*2\r\n$9\r\nSUBSCRIBE\r\n$1\r\nc\r\n", PUBLISH[] = "*3\r\n$7\r\nPUBLISH\r\n$1\r\nc\r\n$1\r\nx\r\n";
enum { SUBSCRIBED = 30, PUBLISHED = 31, READY = 22 };

/* Waits until each link has so many bytes more; keeps how long each took since a moment, if there is one. */
static void take_each(struct link *links, int left, int bytes, uint64_t since) {
    struct epoll_event events[EVENTS];
    char text[256];
    while (left)
        for (int at = polled(events) - 1; at >= 0; at--) {
            struct link *it = &links[events[at].data.u32];
            ssize_t came = recv(it->file, text, sizeof text, 0);
            if (came <= 0) give_up("recv");
            if ((it->held += came) < bytes) continue;
            wrong += it->held > bytes || (bytes == READY && it->held == came && memcmp(text, "\0\0\0\22\2\112", 6));
            it->held = 0, left--;
            if (since) keep_time(now() - since);
        }
}

/* Makes a change by a link of its own, and takes its reply behind the others' replies. */
static uint64_t change(int file, uint64_t at) {
    char text[MOST_REQUEST];
    int bytes = put_entry(text + 10, at, keys + at);
    bytes += put_mark(text + 10 + bytes, at);
    put_items(text, 2, bytes);
    uint64_t start = now();
    if (kind.is_redis) send_all(file, PUBLISH, sizeof PUBLISH - 1);
    else send_all(file, text, 10 + bytes);
    return start;
}

/* All wait, then comes the change, so often as there is time. */
static void tell_waits(struct link *links, int count, int port, double seconds) {
    char request[18], reply[64];
    int changer = opened(port);
    uint64_t rounds = 0, end = now() + seconds * 1e9;
    put(request, 14, 4), put(request + 4, 0x023b, 2), put(request + 14, 600000, 4);
    for (int at = 0; kind.is_redis && at < count; at++) send_all(links[at].file, SUBSCRIBE, sizeof SUBSCRIBE - 1);
    if (kind.is_redis) take_each(links, count, SUBSCRIBED, 0);
    for (; now() < end || !rounds; rounds++) {
        put(request + 6, last_time + 1 + rounds, 8);
        for (int at = 0; !kind.is_redis && at < count; at++) send_all(links[at].file, request, sizeof request);
        usleep(100000);
        uint64_t start = change(changer, last_time + 1 + rounds);
        take_each(links, count, kind.is_redis ? PUBLISHED : READY, start);
        if (recv(changer, reply, sizeof reply, 0) <= 0) give_up("recv");
    }
    tell_times();
    printf("\"rounds\": %lu, ", rounds);
}

int main(int argc, char **argv) {
    if (argc != 11) return fprintf(stderr, "many_links WORK SERVER PORT PID LINKS ACTIVE BATCH SECONDS KEYS TIME\n"), 2;
    int port = atoi(argv[3]), pid = atoi(argv[4]), count = atoi(argv[5]), active = atoi(argv[6]);
    batch = atoi(argv[7]), keys = atoll(argv[9]), last_time = atoll(argv[10]);
    double seconds = atof(argv[8]);
    struct rlimit files;
    getrlimit(RLIMIT_NOFILE, &files);
    files.rlim_cur = files.rlim_max;
    setrlimit(RLIMIT_NOFILE, &files);
    times = malloc(MOST_TIMES * sizeof *times);
    poller = epoll_create1(0);
    choose_kind(argv[1], argv[2]);
    long before = resident(pid);
    struct link *links = open_all(port, count);
    printf("{\"work\": \"%s\", \"server\": \"%s\", \"links\": %d, \"active\": %d, \"batch\": %d, ", argv[1], argv[2], count, active, batch);
    if (!strcmp(argv[1], "wait")) tell_waits(links, count, port, seconds);
    else tell_asks(links, count, active, seconds, pid, before);
    printf("\"wrong\": %lu}\n", wrong);
    return wrong != 0;
}
